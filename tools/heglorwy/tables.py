"""What the proved program makes of a tariff: its tables, beside the lines that they were made of."""

import bisect
from itertools import zip_longest
from typing import NamedTuple

from heglorwy.program import Differs, Refused
from heglorwy.tariff import read_tariff
from heglorwy.tariff_parts import cells_of, cuts_of, number_of, of_kind, place_of
from heglorwy.tariff_kinds import IN_CELLS, KINDS


def money(units, decimals):
    return f"{units // 10**decimals}.{units % 10**decimals:0{decimals}}" if decimals else str(units)


class Tables(NamedTuple):
    lines: list
    decimals: int
    cells: list  # of the numbers of a line of each kind, of which the last may be left out
    rates: list  # what a pulse and a tick weigh under each rate
    cuts: dict  # of each dimension
    by_kind: dict  # the lines of each kind of which a cell has one
    sizes: tuple  # how many zones and kinds of day there are

    def number_of_cell(self, context):
        """The number of the cell of a context: position, zone, weekday, holiday, month and date, minute, distance,
        time."""
        position, zone, weekday, is_holiday, month_date, minute, distance, time = context
        zones, kinds = self.sizes
        wheels = [(zones, zone - 1), (7, weekday - 1), (kinds, is_holiday if kinds == 2 else 0)]
        for name, value in zip(self.cuts, (place_of(*month_date), minute, distance, time)):
            wheels.append((len(self.cuts[name]) + 1, bisect.bisect_right(self.cuts[name], value)))
        number = position - 1
        for size, at in wheels:
            number = number * size + at
        return number

    def lines_at(self, context):
        """The line of each kind that holds in a context; None for no minimum."""
        numbers = zip_longest(IN_CELLS, self.cells[self.number_of_cell(context)], fillvalue=0)
        return {kind: self.by_kind[kind][number - 1] if number else None for kind, number in numbers}


def rows_of(tariff):
    """The rows of amounts that the tables of a tariff have, kind by kind."""
    for word, kind in KINDS.items():
        for number, line in enumerate(of_kind(tariff.lines, word) if kind.row else [], 1):
            said = [(line.parts[name], tariff.decimals if name in kind.amounts else 0) for name in kind.row[1:]]
            yield [kind.row[0], str(number), *(money(*amount) for amount in said)]


def tables_of(taxi, text, constant):
    """The tables of a sound tariff; what was read of its lines is compared with them."""
    printed = taxi.well("tables", "tariff", str(constant), tariff=text, said="the tariff is refused")
    rows = [line.split(" ") for line in printed]
    tariff = read_tariff(taxi, text)
    rates = [tuple(map(int, row[2:])) for row in rows if row[0] == "RATE"]
    cells = [tuple(map(int, row[2:])) for row in rows if row[0] == "CELL"]
    if len(cells) != cells_of(tariff.lines):
        raise Differs(f"the program makes {len(cells)} cells, where {cells_of(tariff.lines)} were found")
    words = {kind.row[0] for kind in KINDS.values() if kind.row}
    by_kind = {kind: of_kind(tariff.lines, kind) for kind in IN_CELLS}
    if len(rates) != len(by_kind["rate"]) or [row for row in rows if row[0] in words] != list(rows_of(tariff)):
        raise Differs("the program's tables have other lines than were found")
    sizes = number_of(tariff.lines, "zones"), 2 if of_kind(tariff.lines, "holiday") else 1
    return Tables(tariff.lines, tariff.decimals, cells, rates, cuts_of(tariff.lines), by_kind, sizes)


def need_place(tables, position, zone):
    """Refuses a position or a zone that a tariff doesn't have."""
    for name, number in (("position", position), ("zone", zone)):
        if number > number_of(tables.lines, f"{name}s"):
            raise Refused(2, f"the tariff has no {name} {number}")


def text_of(text, line):
    """What a line of the text says, without its comment."""
    return text.split(b"\n")[line.number - 1].split(b"#")[0].decode(errors="replace").strip()
