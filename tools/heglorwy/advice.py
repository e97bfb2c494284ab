"""What an author of a sound tariff perhaps didn't mean, by `taxi lines`, `taxi tables` and the printed form."""

import datetime
import os

from heglorwy import odd_figures
from heglorwy.brackets import brackets
from heglorwy.program import Differs
from heglorwy.tables import tables_of
from heglorwy.tariff_parts import atoms_in, atoms_of, of_kind

NEVER = "never: a meter comes to no position, zone, day, minute, distance and time at which it is the first that holds"
MINIMUM = "minimum: this minimum fare never shows: each hire fee beside which it holds is at least as high"
UNASKED = "unused: no condition asks for a {0}, so all {0}s have the same fare"
NO_HOLIDAY = "unused: no condition asks for `holiday`, so this date is as any other"
PAST = "past: {0} of the holidays are past, this one the latest"
MIDNIGHT = (
    "midnight: a day, a date and `holiday` are asked of the calendar day, so behind midnight this holds on the morning of "
    "that same day; the night that begins on a Friday is day fri and time 22:00..00:00 or day sat and time 00:00..06:00"
)
OF_DAYS = ("day", "date", "holiday")


def today():
    """TAXI_TODAY, as 2026-03-02, stands for today."""
    said = os.environ.get("TAXI_TODAY")
    return datetime.date.fromisoformat(said) if said else datetime.date.today()


def lines_that_never_hold(taxi, text, constant):
    """The lines of a sound tariff that `lines` calls `never`."""
    printed, status = taxi.call("lines", "tariff", str(constant), tariff=text)
    if status:
        raise Differs(f"lines ends with {status} of a tariff without a fault")
    rows = [line.split(" ") for line in printed.decode().splitlines()]
    return [int(row[0]) for row in rows if row[2] == "never"]


def minimums_that_never_show(tables):
    """Minimum fares that no hiring shows: in each cell in which one is in force the hire fee is at least as high. Both
    are asked at the hiring, so a cell far into a trip has those of its beginning."""
    shows, is_there = set(), set()
    for cell in tables.cells:
        initial, minimum = cell[1], cell[2] if len(cell) > 2 else 0
        if minimum:
            line = tables.by_kind["minimum"][minimum - 1]
            is_there.add(line.number)
            if tables.by_kind["initial"][initial - 1].parts["amount"] < line.parts["amount"]:
                shows.add(line.number)
    return sorted(is_there - shows)


def unasked(lines):
    """Positions, zones and holidays for which no condition asks."""
    asked = {atom[0] for atom in atoms_in(lines)}
    for kind, word in (("positions", "position"), ("zones", "zone")):
        for line in of_kind(lines, kind):
            if line.parts["number"] > 1 and word not in asked:
                yield line.number, UNASKED.format(word)
    if "holiday" not in asked:
        yield from ((line.number, NO_HOLIDAY) for line in of_kind(lines, "holiday")[:1])


def past_holidays(lines, day):
    """The latest holiday before a day, and how many there are before it."""
    past = [(datetime.date(*line.parts["date"]), line.number) for line in of_kind(lines, "holiday")]
    past = [one for one in past if one[0] < day]
    return [(max(past)[1], PAST.format(len(past)))] if past else []


def parts_joined(condition, operator):
    """The parts that an operator joins, without its own brackets."""
    if condition and condition[0] == operator:
        return [part for inner in condition[1:] for part in parts_joined(inner, operator)]
    return [condition]


def crosses_midnight(condition):
    """Whether a calendar day and a time over midnight are asked for together."""
    if condition is None or condition[0] not in ("and", "or", "not"):
        return False
    if condition[0] != "and":
        return any(crosses_midnight(inner) for inner in condition[1:])
    parts = parts_joined(condition, "and")
    has_day = any(atom[0] in OF_DAYS for part in parts for atom in (atoms_of(part) if part[0] != "not" else []))
    over = any(part[0] == "minute" and part[1] > part[2] > 0 for part in parts)
    return has_day and over or any(crosses_midnight(part) for part in parts)


def of_tariff(taxi, text, constant):
    """What may not be meant in a sound tariff: line, words, and place and width where a part of the line is marked."""
    tables = tables_of(taxi, text, constant)
    found = [(number, NEVER) for number in lines_that_never_hold(taxi, text, constant)]
    found += [(number, MINIMUM) for number in minimums_that_never_show(tables)]
    found += unasked(tables.lines)
    found += past_holidays(tables.lines, today())
    found += [(line.number, MIDNIGHT) for line in tables.lines if crosses_midnight(line.when)]
    found += filter(None, (brackets(text, line) for line in tables.lines if line.when))
    found += odd_figures.of_tariff(taxi, text, tables, constant)
    return sorted(set(found))
