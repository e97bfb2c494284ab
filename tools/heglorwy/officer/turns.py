"""The ways in which a tariff is turned: each gives a wrong tariff, which a drive has to tell from the right one."""

import datetime
from typing import Callable, NamedTuple

from heglorwy.officer import wording
from heglorwy.officer.levels import BY_REFUSAL, NOT_EQUAL, NOT_PERMITTED
from heglorwy.tariff import Tariff
from heglorwy.tariff_kinds import DAYS, IN_CELLS
from heglorwy.tariff_parts import MONTHS, number_of, of_kind, place_of

SURE = ("or", ("position", 1), ("not", ("position", 1)))
NEVER = ("and", ("position", 1), ("not", ("position", 1)))
MOST_PLACES = 16  # pairs of a position and a zone that are tried; where there are more, each alone
# By how many units the border of an atom is moved: by more where by fewer the difference would be permitted.
FURTHER = {
    "minute": (1, 16, 256), "date": (1, 16), "day": (1,), "distance": (1, 16, 256, 4096, 65536),
    "time of trip": (1, 16, 256, 4096, 65536),
}
WITHIN = 256  # units by which a border of distance or duration is moved, over which a short hiring leads


class Turn(NamedTuple):
    """A tariff that is wrong in one way."""

    title: str
    lines: list
    wanted: int = NOT_PERMITTED  # the level at which a drive should tell it
    rate: tuple | None = None  # the rate line of which a measure is off, and `distance` or `time`
    further: Callable | None = None  # the same turn by more; None where there is none
    is_within: bool = False  # whether it differs only within a part of a trip: to drive on shows no more

    @property
    def is_of_steps(self):
        """Whether a rate has to be driven for 103 display steps to tell it."""
        return self.rate is not None and self.wanted == NOT_PERMITTED


def replaced(lines, at, *new):
    return lines[:at] + list(new) + lines[at + 1 :]


def turned(tariff, at, said, *new, **more):
    """A turn of the line at a place: what is wrong with it, and the lines that stand there."""
    return Turn(f"line {tariff.lines[at].number}: {said}", replaced(tariff.lines, at, *new), **more)


def lines_of(tariff, *kinds):
    """The lines of some kinds, each with its place."""
    return [(at, line) for at, line in enumerate(tariff.lines) if line.kind in kinds]


def with_parts(line, **parts):
    return line._replace(parts={**line.parts, **parts})


def atoms(node, path=()):
    """The atoms of a condition, each with the way to it."""
    if node[0] not in ("and", "or", "not"):
        yield path, node
        return
    for at, inner in enumerate(node[1:], 1):
        yield from atoms(inner, (*path, at))


def put(node, path, new):
    """A condition with another one at a place."""
    if not path:
        return new
    return (*node[: path[0]], put(node[path[0]], path[1:], new), *node[path[0] + 1 :])


def date_at(place):
    """The month and date of a place in a leap year."""
    place %= 366
    month = next(number for number in range(1, 13) if place < sum(MONTHS[:number]))
    return month, place - sum(MONTHS[: month - 1]) + 1


MOVES = {
    "minute": lambda minute, by: (minute + by) % 1440, "date": lambda date, by: date_at(place_of(*date) + by),
    "day": lambda day, by: (day - 1 + by) % 7 + 1,
}


def moved(atom, end, by):
    """An atom with a border moved by so many units, or None where there is no such border."""
    if atom[0] in MOVES:
        return replaced_in(atom, end, MOVES[atom[0]](atom[end], by))
    return (atom[0], atom[1] + by) if atom[1] + by > 0 else None


def replaced_in(atom, at, value):
    return (*atom[:at], value, *atom[at + 1 :])


def atom_turns(tariff):
    """Each atom of each condition, taken as always and as never holding."""
    for at, line in enumerate(tariff.lines):
        for path, atom in atoms(line.when) if line.when else ():
            for word, new in (("always", SURE), ("never", NEVER)):
                said = f"`{wording.condition(atom)}` {word} holds"
                yield turned(tariff, at, said, line._replace(when=put(line.when, path, new)))


def borders(atom):
    """The borders of an atom that can be moved: each with its place and its name."""
    if atom[0] in MOVES:
        return [(1, "begins"), (2, "ends")]
    return [(1, "begins")] if atom[0] in FURTHER else []


UNITS = {"minute": "min", "date": "d", "day": "d"}


def by_how_much(kind, by):
    """How far a border was moved, in words."""
    way = "later" if by > 0 else "earlier"
    if kind in UNITS:
        return f"{abs(by)} {UNITS[kind]} {way}"
    return f"{wording.tenths(abs(by))} {'m' if kind == 'distance' else 's'} {way}"


def border_turns(tariff):
    """Each border of each atom, moved to either side."""
    for at, line in enumerate(tariff.lines):
        for path, atom in atoms(line.when) if line.when else ():
            for end, name in borders(atom):
                for sign in (1, -1):
                    ways = [sign * by for by in FURTHER[atom[0]]]
                    yield from a_border_turn(tariff, at, path, atom, (end, name), ways)


def a_border_turn(tariff, at, path, atom, border, ways):
    """A border moved the first way, and by more behind it."""
    line, (end, name) = tariff.lines[at], border
    new = moved(atom, end, ways[0]) if ways else None
    if new is None:
        return
    yield turned(
        tariff, at, f"`{wording.condition(atom)}` {name} {by_how_much(atom[0], ways[0])}",
        line._replace(when=put(line.when, path, new)),
        further=lambda: next(a_border_turn(tariff, at, path, atom, border, ways[1:]), None),
        is_within=atom[0] in ("distance", "time of trip") and abs(ways[0]) <= WITHIN,
    )


def line_turns(tariff):
    """Each line lost, and each moved behind and before each other one of its kind."""
    for kind in IN_CELLS:
        conditional = [(at, line) for at, line in lines_of(tariff, kind) if line.when]
        for number, (at, line) in enumerate(conditional, 1):
            yield turned(tariff, at, "lost")
            for other, last in conditional[number:]:
                between = tariff.lines[at + 1 : other]
                lines = among(tariff, at, other, [*between, last, line])
                yield Turn(f"line {line.number}: moved behind line {last.number}", lines)
                if between:
                    lines = among(tariff, at, other, [last, line, *between])
                    yield Turn(f"line {last.number}: moved before line {line.number}", lines)


def among(tariff, first, last, lines):
    """The lines of a tariff with others in the place of those from one to another one."""
    return [*tariff.lines[:first], *lines, *tariff.lines[last + 1 :]]


def holiday_turns(tariff):
    """Each holiday lost, a day off, and a year later, as in a list of another year."""
    known = {line.parts["date"] for line in of_kind(tariff.lines, "holiday")}
    for at, line in lines_of(tariff, "holiday"):
        yield turned(tariff, at, "no holiday")
        for by, way in ((-1, "a day earlier"), (1, "a day later"), (365, "a year later")):
            day = datetime.date(*line.parts["date"]) + datetime.timedelta(days=by)
            date = (day.year, day.month, day.day)
            if date not in known and 2000 <= day.year <= 2199:
                yield turned(tariff, at, f"the holiday is {way}", with_parts(line, date=date))


def rate_turns(tariff):
    """Each measure 2 % and a unit off, and each amount of 0 that isn't."""
    step = step_of(tariff)
    for at, line in lines_of(tariff, "rate"):
        for amount, measure, name in (("a", "b", "distance"), ("c", "e", "time")):
            value, free = line.parts[measure], line.parts[amount] == 0
            if free:
                yield turned(tariff, at, f"{name} isn't free", with_parts(line, **{amount: step}))
                continue
            longer, shorter = max(value + 1, -(-value * 102 // 100)), min(value - 1, value * 100 // 102)
            for new, what, large in (
                (longer, "2 % too cheap", True), (shorter, "2 % too dear", True), (value + 1, "a unit longer", False),
                (value - 1, "a unit shorter", False),
            ):
                if new > 0:
                    wanted = NOT_PERMITTED if large else NOT_EQUAL
                    made = with_parts(line, **{measure: new})
                    yield turned(tariff, at, f"{name} {what}", made, wanted=wanted, rate=(line.number, name))


def step_of(tariff):
    return of_kind(tariff.lines, "step")[0].parts["amount"]


AMOUNTS = {"initial": (("amount", "fee"), ("covers", "cover")), "minimum": (("amount", "minimum"),)}


def amount_turns(tariff):
    """Each hire fee, cover and minimum fare, one and two steps off."""
    step = step_of(tariff)
    for at, line in enumerate(tariff.lines):
        for part, name in AMOUNTS.get(line.kind, ()):
            for by in (1, 2, -1, -2):
                new = line.parts[part] + by * step
                if new >= 0:
                    much = f"{abs(by)} step{'s' * (abs(by) > 1)} {'more' if by > 0 else 'less'}"
                    wanted = NOT_EQUAL if abs(by) == 1 else NOT_PERMITTED
                    yield turned(tariff, at, f"the {name} is {much}", with_parts(line, **{part: new}), wanted=wanted)


def supplement_turns(tariff):
    """Each supplement lost, of another amount, and taken once more or less often."""
    for at, line in lines_of(tariff, "supplement"):
        yield turned(tariff, at, "no such supplement")
        for part, by, name in (
            ("amount", 1, "a unit dearer"), ("amount", -1, "a unit cheaper"), ("most", 1, "once more than max"),
            ("most", -1, "once less than max"),
        ):
            new = line.parts[part] + by
            if (0 <= new) if part == "amount" else (0 < new < 100):
                yield turned(tariff, at, name, with_parts(line, **{part: new}))


def count_turns(tariff):
    """The display step, its rounding, and how many positions and zones there are."""
    for at, line in lines_of(tariff, "step"):
        other = "behind" if line.parts["rounding"] == "ahead" else "ahead"
        yield turned(tariff, at, f"`{other}`", with_parts(line, rounding=other), wanted=NOT_EQUAL)
        amount = line.parts["amount"]
        for new, name in ((2 * amount, "twice"), (amount // 2, "half")):
            if new and (name == "twice" or amount % 2 == 0):
                yield turned(tariff, at, f"{name} the display step", with_parts(line, amount=new), wanted=NOT_EQUAL)
    for kind in ("positions", "zones"):
        for by, name in ((1, "one more"), (-1, "one less")):
            number = number_of(tariff.lines, kind) + by
            if 1 <= number <= 9:
                yield Turn(f"{kind}: {name}", with_number(tariff.lines, kind, number), BY_REFUSAL)


def with_number(lines, kind, number):
    """The lines with so many positions or zones."""
    at = next((at for at, line in enumerate(lines) if line.kind == kind), None)
    if at is not None:
        return replaced(lines, at, with_parts(lines[at], number=number))
    step = of_kind(lines, "step")[0]
    return [*lines, step._replace(kind=kind, number=0, parts={"number": number})]


def places_of(tariff, with_days):
    """Where each line is tried: each position and zone, and each weekday where that is asked for."""
    positions, zones = (range(1, number_of(tariff.lines, kind) + 1) for kind in ("positions", "zones"))
    pairs = [("and", ("position", position), ("zone", zone)) for position in positions for zone in zones]
    if len(pairs) == 1:
        pairs = []
    elif len(pairs) > MOST_PLACES:
        pairs = [("position", position) for position in positions] + [("zone", zone) for zone in zones]
    return pairs + [("day", day, day) for day in range(1, len(DAYS) + 1) if with_days]


def place_turns(tariff, with_days):
    """Each line lacking or gaining a position and zone, or a weekday; a line without a condition is dearer there."""
    for kind in IN_CELLS:
        for at, line in lines_of(tariff, kind):
            for place in places_of(tariff, with_days):
                where = f"in `{wording.condition(place)}`"
                if line.when is None:
                    yield turned(tariff, at, f"dearer {where}", dearer(line, tariff)._replace(when=place), line)
                    continue
                for title, when in (("not", ("and", line.when, ("not", place))), ("also", ("or", line.when, place))):
                    yield turned(tariff, at, f"{title} {where}", line._replace(when=when))


def dearer(line, tariff):
    """A line by which more is charged."""
    step = step_of(tariff)
    if line.kind == "rate":
        return with_parts(line, a=2 * line.parts["a"] or step, c=2 * line.parts["c"] or step)
    return with_parts(line, amount=line.parts["amount"] + 2 * step)


def turns_of(tariff: Tariff, with_days):
    """All turns, those first that need the longest hirings."""
    yield from rate_turns(tariff)
    yield from atom_turns(tariff)
    yield from border_turns(tariff)
    yield from line_turns(tariff)
    yield from holiday_turns(tariff)
    yield from amount_turns(tariff)
    yield from supplement_turns(tariff)
    yield from count_turns(tariff)
    yield from place_turns(tariff, with_days)
