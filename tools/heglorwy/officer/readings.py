"""The officer's table of readings: the three columns of the bench, and others beside them, in the forms in which
spreadsheets write tables."""

import csv
import hashlib
import io
from typing import NamedTuple

from heglorwy.officer.numbers import BadCell, Cell, bare, sign_of, thousands_of, value
from heglorwy.program import Refused

QUANTITIES = ["fare", "distance", "time"]
EXACT = ["supplements", "position", "zone", "refused", "receipt"]
COLUMNS = ["hiring", *QUANTITIES, *EXACT, "remark"]
WHOLE = ["hiring", "position", "zone", "refused"]
KINDS = ["CLOSED", "ABORTED", "EXPIRED"]
MOST_BYTES = 1_048_576
BETWEEN = {",": "commas", ";": "semicolons", "\t": "tabs"}
MARKS = {".": "points", ",": "commas", "'": "apostrophes", "\u2019": "apostrophes"}


class Reading(NamedTuple):
    """What was read of a hiring: units by column; None of the three where it wasn't read."""

    row: int
    values: dict
    remark: str

    @property
    def is_there(self):
        return self.values.get("fare") is not None


class Readings(NamedTuple):
    columns: list
    rows: list
    how: str  # how the table was read
    digest: str


class Table:
    """A table of readings as it is read."""

    def __init__(self, content, decimals):
        self.decimals, self.how = decimals, []
        if len(content) > MOST_BYTES:
            raise BadCell("the table is too long")
        self.between, rows = self.rows_of(self.text_of(content))
        self.header, self.rows = self.header_of(rows[0] if rows else (1, [])), rows[1:]

    def text_of(self, content):
        if content[:2] in (b"\xff\xfe", b"\xfe\xff"):
            self.how.append("UTF-16")
            return content.decode("utf-16", errors="replace")
        if b"\0" in content:
            raise BadCell("it has bytes of 0: it is no table of text")
        if content.startswith(b"\xef\xbb\xbf"):
            self.how.append("a byte order mark at its beginning")
        try:
            return content.decode("utf-8-sig")
        except UnicodeDecodeError:
            self.how.append("letters of Windows-1252")
            return content.decode("cp1252", errors="replace")

    def rows_of(self, text):
        """The sign between columns, and the rows that say something, with their numbers."""
        first = next((line for line in text.splitlines() if line.strip()), "")
        found = [sign for sign in BETWEEN if sign in first]
        if len(found) != 1:
            raise BadCell(f"row 1: the columns are to be parted by one of {', '.join(BETWEEN.values())}")
        if found[0] != ",":
            self.how.append(f"{BETWEEN[found[0]]} between the columns")
        try:
            rows = list(enumerate(csv.reader(io.StringIO(text, newline=""), delimiter=found[0], strict=True), 1))
        except csv.Error as why:
            raise BadCell(f"it is no table: {why}") from None
        return found[0], [(number, cells) for number, cells in rows if any(cell.strip() for cell in cells)]

    def header_of(self, row):
        number, cells = row
        names = [cell.strip().lower() for cell in cells]
        while names and not names[-1]:
            names.pop()
        for name in names:
            if name not in COLUMNS or names.count(name) > 1:
                wrong = "stands twice" if name in COLUMNS else f"is none of {', '.join(COLUMNS)}"
                raise BadCell(f"row {number}: the column {name!r} {wrong}")
        if missing := [name for name in QUANTITIES if name not in names]:
            raise BadCell(f"row {number}: there is no column {missing[0]}")
        return names

    def cells_of(self, number, cells):
        """The cells of a row by their columns."""
        if any(cell.strip() for cell in cells[len(self.header) :]):
            hint = ": decimals behind a comma need other signs between the columns" if self.between == "," else ""
            raise BadCell(f"row {number}: it has {len(cells)} cells, and there are {len(self.header)} columns{hint}")
        texts = dict(zip(self.header, (cell.strip() for cell in cells)))
        there = [name for name in QUANTITIES if texts.get(name)]
        if there and len(there) < len(QUANTITIES):
            missing = next(name for name in QUANTITIES if name not in there)
            raise BadCell(f"row {number}, {missing}: is empty")
        return texts

    def number_cells(self, number, texts):
        kinds = {"fare": (self.decimals, "money"), "distance": (3, "m"), "time": (1, "s")}
        kinds["supplements"] = kinds["fare"]
        for name, kind in kinds.items():
            if texts.get(name):
                yield Cell(number, name, texts[name], *kind)

    def readings(self):
        """All readings. Which sign stands before decimals is decided for the whole table."""
        rows = [(number, self.cells_of(number, cells)) for number, cells in self.rows]
        cells = [cell for number, texts in rows for cell in self.number_cells(number, texts)]
        sign = sign_of(cells, self.between == ",") if cells else "."
        self.say_signs(cells, sign)
        readings = []
        for number, texts in rows:
            values = {cell.column: value(cell, sign) for cell in self.number_cells(number, texts)}
            values |= {name: whole(number, name, texts[name]) for name in WHOLE if texts.get(name)}
            if texts.get("receipt"):
                values["receipt"] = kind_of(number, texts["receipt"])
            readings.append(Reading(number, values, texts.get("remark", "")))
        return readings

    def say_signs(self, cells, sign):
        if sign == ",":
            self.how.append("commas before decimals")
        marks = sorted({MARKS.get(mark, "blanks") for cell in cells if (mark := thousands_of(cell, sign))})
        self.how += [f"{mark} for thousands" for mark in marks]
        left_out = sorted({text for cell in cells if (text := bare(cell)[1])})
        self.how += [f"{text} beside numbers" for text in left_out]


def whole(number, name, text):
    if not (text.isascii() and text.isdigit() and len(text) <= 6):
        raise BadCell(f"row {number}, {name}: {text!r} is no whole number")
    return int(text)


def kind_of(number, text):
    if text.upper() not in KINDS:
        raise BadCell(f"row {number}, receipt: {text!r} is none of {', '.join(KINDS)}")
    return text.upper()


def readings_in(content, decimals, name="the readings"):
    """The readings of a table."""
    try:
        table = Table(content, decimals)
        rows = table.readings()
    except BadCell as why:
        raise Refused(10, f"{name}: {why}") from None
    how = ", ".join(table.how) or "as taxi bench reads them"
    return Readings(table.header, rows, how, hashlib.sha256(content).hexdigest())


def in_order(readings, count, name):
    """The reading of each hiring, or None: by the column of their numbers where there is one, and by their order
    otherwise; and those that are too many."""
    if "hiring" not in readings.columns:
        found = readings.rows[:count]
        return found + [None] * (count - len(found)), readings.rows[count:]
    by_number = {}
    for reading in readings.rows:
        number = reading.values.get("hiring")
        if number is None or not 1 <= number <= count or number in by_number:
            wrong = f"{number} stands twice" if number in by_number else f"{number} is none of 1 to {count}"
            raise Refused(10, f"{name}: row {reading.row}, hiring: {'is empty' if number is None else wrong}")
        by_number[number] = reading
    return [by_number.get(number) for number in range(1, count + 1)], []
