"""Tables of readings in the forms in which spreadsheets write them: read as they are meant, or refused."""

import re

import pytest
from heglorwy.officer.readings import readings_in
from heglorwy.program import Refused

# Tables of readings under two decimals: the units of the first row, or words of the refusal.
TABLES = [
    ("fare,distance,time\n14.60,6012,660.7\n", (1460, 6012000, 6607)),
    ("fare;distance;time\r\n14,60;6012;660,7\r\n", (1460, 6012000, 6607)),
    ("\ufefffare;distance;time\n€ 1.210,82;6.012,5;660,7 s\n", (121082, 6012500, 6607)),
    ('fare,distance,time\n"1,210.82","6,012.5",660.7\n', (121082, 6012500, 6607)),
    ("Fare\tDistance\tTime\nCHF 1'210.80\t6 012\t660\n", (121080, 6012000, 6600)),
    ("fare;distance;time\n14;6,012;660\n", "row 2, distance: '6,012' may be 6012 or 6.012"),
    ("fare;distance;time\n4.300;300;15\n", "row 2, fare: '4.300' may have a sign for thousands"),
    ("fare,distance,time\n4.300,300,15\n", "row 2, fare: '4.300' has more than 2 decimals"),
    ("fare,distance,time\n4,30,300,15,3\n", "row 2: it has 5 cells"),
    ('fare;distance;time\n1.210,82;300.5;15\n', "row 2, fare"),
    ("fare,distance,time\n4.30,300,00:15.3\n", "row 2, time: '00:15.3' is no number"),
    ("fare,distance,time\n4.30,,15.3\n", "row 2, distance: is empty"),
    ("fare,distance,time\n-4.30,300,15.3\n", "row 2, fare: '-4.30' is no number"),
    ("fare,distance\n4.30,300\n", "row 1: there is no column time"),
    ("fare,distance,time,speed\n4.30,300,1,9\n", "row 1: the column 'speed' is none of"),
    ("fare,distance,time,receipt\n4.30,300,1,paid\n", "row 2, receipt: 'paid' is none of"), ("", "row 1"),
]


@pytest.mark.parametrize(("text", "wanted"), TABLES)
def test_table(text, wanted):
    """The units of the first row, or words of the refusal."""
    if isinstance(wanted, str):
        with pytest.raises(Refused, match=re.escape(wanted)) as why:
            readings_in(text.encode(), 2)
        assert why.value.status == 10
    else:
        row = readings_in(text.encode(), 2).rows[0]
        assert tuple(row.values[name] for name in ("fare", "distance", "time")) == wanted
