"""Numbers as spreadsheets write them, where there is one reading only."""

import re
import unicodedata
from typing import NamedTuple

BLANKS = " \u00a0\u2009\u202f\t"
APOSTROPHES = "'\u2019"
SIGNS = ".,"
LARGEST = 10**12  # units of the last decimal that a field may have


class BadCell(Exception):
    """A cell has no reading, or more than one."""


class Cell(NamedTuple):
    """A cell that is a number: its text, how many decimals it may have, and what may stand beside it."""

    row: int
    column: str
    text: str
    decimals: int
    unit: str  # `m`, `s`, `money` for a currency, or nothing


CURRENCIES = [rf"^([A-Z]{{3}})[{BLANKS}]*(?=[0-9])", rf"(?<=[0-9])[{BLANKS}]*([A-Z]{{3}})$"]


def bare(cell):
    """The digits and signs of a cell, without blanks at its ends, a currency or a unit; and what was left out."""
    text = cell.text.strip(BLANKS)
    if cell.unit == "money":
        for pattern in CURRENCIES:
            if found := re.search(pattern, text):
                return text[: found.start()] + text[found.end() :], found[1]
        for sign in {text[:1], text[-1:]} - {""}:
            if unicodedata.category(sign) == "Sc":
                return text.strip(sign + BLANKS), sign
    elif cell.unit and re.search(rf"[0-9][{BLANKS}]*{cell.unit}$", text):
        return text[: -len(cell.unit)].strip(BLANKS), cell.unit
    return text, ""


def parted(text, sign):
    """The whole part, the sign for thousands, and the decimals of a number of which decimals stand behind a sign; None
    where it is none."""
    whole, _, part = text.partition(sign)
    if (sign in text and not re.fullmatch("[0-9]+", part)) or sign in part:
        return None
    for mark in {*SIGNS, *BLANKS, *APOSTROPHES} - {sign}:
        if re.fullmatch(rf"[1-9][0-9]{{0,2}}({re.escape(mark)}[0-9]{{3}})+", whole):
            return whole.replace(mark, ""), mark, part
    return (whole, "", part) if re.fullmatch("[0-9]+", whole) else None


def value(cell, sign):
    """The number in units of its last decimal, if decimals stand behind a sign; None where it can't be read so."""
    found = parted(bare(cell)[0], sign)
    if found is None or len(found[2]) > cell.decimals:
        return None
    units = int(found[0] + found[2].ljust(cell.decimals, "0"))
    return units if units <= LARGEST else None


def has_decimals(cell, sign):
    found = parted(bare(cell)[0], sign)
    return found is not None and found[2] != ""


def thousands_of(cell, sign):
    """The sign for thousands, which blanks and apostrophes leave no doubt of."""
    found = parted(bare(cell)[0], sign)
    return found[1] if found else ""


def name_of(cell):
    return f"row {cell.row}, {cell.column}: {cell.text.strip()!r}"


def refuse_bad(cells):
    """Names a cell that is no number, whichever sign stands before decimals."""
    for cell in cells:
        if all(value(cell, sign) is None for sign in SIGNS):
            many = f"with at most {cell.decimals} decimal{'s' * (cell.decimals > 1)}"
            raise BadCell(f"{name_of(cell)} is no number {many if cell.decimals else 'without decimals'}")


def sign_of(cells, has_commas_between):
    """The sign that stands before decimals in all cells."""
    refuse_bad(cells)
    if has_commas_between and not any("," in cell.text for cell in cells):
        refuse_unless(".", cells)
        return "."
    fits = [sign for sign in SIGNS if all(value(cell, sign) is not None for cell in cells)]
    if not fits:
        point, comma = (next(cell for cell in cells if value(cell, sign) is None) for sign in SIGNS)
        signs = f"{name_of(point)} has its decimals behind a comma, and {name_of(comma)} behind a point"
        raise BadCell(signs)
    if len(fits) == 2:
        for cell in cells:
            if value(cell, ".") != value(cell, ","):
                raise BadCell(f"{name_of(cell)} may be {as_plain(cell, '.')} or {as_plain(cell, ',')}")
        return "."
    refuse_guess(fits[0], cells)
    return fits[0]


def refuse_unless(sign, cells):
    for cell in cells:
        if value(cell, sign) is None:
            raise BadCell(f"{name_of(cell)} has more than {cell.decimals} decimals, or points for thousands")


def refuse_guess(sign, cells):
    """Nothing but one sign for thousands tells of decimals: then a slip of the pen would be read as a great number."""
    if any(has_decimals(cell, sign) for cell in cells):
        return
    for cell in cells:
        if thousands_of(cell, sign) in set(SIGNS) and bare(cell)[0].count(thousands_of(cell, sign)) == 1:
            raise BadCell(f"{name_of(cell)} may have a sign for thousands, or too many decimals")


def as_plain(cell, sign):
    whole, _, part = parted(bare(cell)[0], sign)
    return f"{whole}.{part}" if part else whole
