"""The form and the report, as they are asked for."""

from decimal import Decimal

from heglorwy.officer.judging import DECIMALS, judged
from heglorwy.officer.page import as_html
from heglorwy.officer.paper import form_of, report_of
from heglorwy.officer.readings import COLUMNS
from heglorwy.officer.text import as_text
from heglorwy.program import read


def printed(paper, asked):
    return as_html(paper) if asked.html else as_text(paper)


def form(asked):
    """The blank form, or a table of readings: an empty one, or with what is expected."""
    found = judged(asked)
    if asked.table:
        rows = [
            table_row(number, wanted if asked.expected else {}, found) for number,
            wanted in enumerate(found.expected, 1)
        ]
        return "".join(f"{','.join(row)}\n" for row in [COLUMNS, *rows]), 0
    return printed(form_of(found, asked), asked), 0


def table_row(number, wanted, found):
    """A row of a table of readings."""
    places = {"fare": found.decimals, "supplements": found.decimals, **DECIMALS}
    numbers = {name: f"{Decimal(wanted[name]).scaleb(-places[name]):f}" for name in places if name in wanted}
    return [str(number), *(str({**wanted, **numbers}.get(name, "")) for name in COLUMNS[1:])]


def report(asked):
    """The report on readings; its status is 11 where a reading doesn't pass."""
    found = judged(asked, read(asked.readings))
    paper = report_of(found, asked)
    return printed(paper, asked), 0 if paper.is_good else 11
