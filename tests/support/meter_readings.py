"""Readings that a meter of the tests shows of drives, as an officer's table."""

from decimal import Decimal

from heglorwy.officer.readings import COLUMNS
from support.fraction_meter import FractionMeter, meter_of

DECIMALS = {"distance": 3, "time": 1}


def shown_by(tariff, params, drives, kind=FractionMeter):
    """What a meter shows of each hiring of some drives, each on a meter that is powered anew."""
    return [reading for drive in drives for reading in meter_of(tariff, params, kind).drive(drive).readings()]


def table_of(readings, decimals, columns=COLUMNS[:-1]):
    """The table of readings, with these columns."""
    rows = [";".join(columns)]
    for number, reading in enumerate(readings, 1):
        values = {"hiring": number, "receipt": reading.kind.lower(), **reading._asdict()}
        for name, places in (("fare", decimals), ("supplements", decimals), *DECIMALS.items()):
            values[name] = f"{Decimal(values[name]).scaleb(-places):.{places}f}".replace(".", ",")
        rows.append(";".join(str(values[name]) for name in columns))
    return "".join(f"{row}\r\n" for row in rows)
