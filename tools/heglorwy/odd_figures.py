"""Figures of a sound tariff that are perhaps misplaced: a cross-over speed of no taxi, a cover above the hire fee, a time
that ends a minute early, a gap between two tiers, amounts that are far too great beside the others. The speeds are those
of `taxi rates`."""

import re
from fractions import Fraction

from heglorwy.program import Differs
from heglorwy.tariff import lines_in
from heglorwy.tariff_parts import atoms_of, of_kind

SLOWEST, FASTEST = 3_000, 60_000  # metres an hour, between which cross-over speeds lie
SHORT = 10_000  # decimetres: a rate for a stretch up to this may fetch what is missing of another fare
FLAT = 10_000_000  # decimetres for which the cover of a flat fare lasts at least
NARROW = 100  # decimetres, tenths of a second: a gap up to this is a slip
DEAR, DEARER, STEPS = 50, 100, 5  # how many kilometres a hire fee or minimum fare, a supplement, a step may cost
SPEED = (
    "speed: this rate charges by the time below {0} m/h, and by the distance above; with taxis that lies between 3 and "
    "60 km/h. Is it the price of an hour beside the seconds of a minute, or is a point at another place?"
)
COVER = (
    "cover: the hire fee pays for more than itself. `covers` takes an amount of money, and no metres; a flat fare asks "
    "for a position of its own, and covers what no trip comes to, as 999999.99"
)
MINUTE = "minute: {0} is the end, so that minute isn't in it; write {1}"
GAP = "gap: what lies between {0} and {1} {2} is in neither of the two; a tier begins where the other ends, at one figure"
AMOUNT = "amount: this is {0} times {1}, or more; is it in hundredths, or is a point missing?"
KILOMETRE, ANOTHER = "what a kilometre costs", "what another line says"


def signed(condition, is_not=False):
    """The atoms of a condition, each with whether a `not` turns it."""
    if condition is None:
        return []
    if condition[0] == "not":
        return signed(condition[1], not is_not)
    if condition[0] in ("and", "or"):
        return [atom for inner in condition[1:] for atom in signed(inner, is_not)]
    return [(condition, is_not)]


def stretch_of(tables, number):
    """For how many decimetres of a trip the rate of a number can hold; None for no end."""
    times, cuts = len(tables.cuts["Time"]) + 1, tables.cuts["Distance"]
    bands = {at // times % (len(cuts) + 1) for at, cell in enumerate(tables.cells) if cell[0] == number}
    if len(cuts) in bands:
        return None
    ends = [0, *cuts]
    return sum(ends[band + 1] - ends[band] for band in bands)


def lasting(tables):
    """The rates that hold for more than a short stretch."""
    stretches = [(line, stretch_of(tables, number)) for number, line in enumerate(tables.by_kind["rate"], 1)]
    return [line for line, stretch in stretches if stretch is None or stretch > SHORT]


def price_of(rate):
    """What a kilometre or three minutes cost, whichever is more."""
    part = rate.parts
    return max(Fraction(part["a"] * 10_000, part["b"]), Fraction(part["c"] * 1_800, part["e"]))


def speeds(taxi, text, tables, constant):
    """Rates whose cross-over speed is none of a taxi's."""
    rows = [row.split(" ") for row in taxi.well("rates", "tariff", str(constant), tariff=text)]
    speed_of = {int(row[3]): row[5] for row in rows if row[0] == "RATE"}
    if sorted(speed_of) != [line.number for line in tables.by_kind["rate"]]:
        raise Differs("rates names other lines than were found")
    for line in lasting(tables):
        speed = speed_of[line.number]
        if line.parts["c"] and speed != "none" and not SLOWEST <= int(speed) <= FASTEST:
            yield line.number, SPEED.format(speed)


def is_of_a_place(line):
    """Whether a line asks for a position or a zone, so that the driver chooses it."""
    return any(atom[0] in ("position", "zone") and not is_not for atom, is_not in signed(line.when))


def lasts(cover, rates):
    """Whether a cover lasts under each rate for as long as a flat fare has to."""
    return all(cover * rate.parts["b"] >= FLAT * rate.parts["a"] for rate in rates)


def covers(tables):
    """Covers above the hire fee, but for those of flat fares."""
    for line in tables.by_kind["initial"]:
        amount, cover = line.parts["amount"], line.parts["covers"]
        if cover > amount and not (is_of_a_place(line) and lasts(cover, tables.by_kind["rate"])):
            yield line.number, COVER


def time_of(minute):
    return f"{minute // 60 % 24:02}:{minute % 60:02}"


def minutes(text, lines):
    """Times that end a minute early."""
    for line in lines:
        for _, first, last in (atom for atom in atoms_of(line.when) if atom[0] == "minute"):
            if last % 60 == 59:
                wanted = f"{time_of(first)}..{time_of(last + 1)}"
                if time_of(last + 1) == time_of(first):
                    wanted = "nothing in its place: that is the whole day"
                said = MINUTE.format(time_of(last), wanted)
                yield line.number, said, *place(text, line, rf"\.\.\s*({time_of(last)})")


def place(text, line, pattern):
    """Where a pattern's group stands in a line, and how long it is."""
    found = re.search(pattern, lines_in(text)[line.number - 1].decode("latin-1"))
    return (found.start(1), len(found[1])) if found else (0, 0)


def gaps(text, lines):
    """Figures of `after` that lie a little above one of `not after`."""
    for kind, unit in (("distance", "m"), ("time of trip", "s")):
        asked = [(atom[1], is_not, line) for line in lines for atom, is_not in signed(line.when) if atom[0] == kind]
        ends, begins = ({at for at, is_not, _ in asked if is_not == turned} for turned in (True, False))
        for at, is_not, line in asked:
            below = [end for end in ends - begins if 0 < at - end <= NARROW]
            if not is_not and at not in ends and below:
                figures = [f"{one // 10}.{one % 10}" for one in (max(below), at)]
                figure = rf"after\s+0*({re.escape(figures[1].removesuffix('.0'))}(?:\.0)?)\s*{unit}"
                yield line.number, GAP.format(*figures, unit), *place(text, line, figure)


def amounts(tables):
    """Amounts that are far too great beside the others."""
    rates = lasting(tables)
    dearest = max(map(price_of, rates), default=0)
    if not dearest:
        return
    for word, most in (("step", STEPS), ("supplement", DEARER), ("minimum", DEAR)):
        for line in of_kind(tables.lines, word):
            if line.parts["amount"] > most * dearest:
                yield line.number, AMOUNT.format(most, KILOMETRE)
    fees = tables.by_kind["initial"]
    for line in fees:
        if line.parts["amount"] > DEAR * dearest and not is_of_a_place(line):
            yield line.number, AMOUNT.format(DEAR, KILOMETRE)
        elif is_far_above(line.parts["amount"], [other.parts["amount"] for other in fees]):
            yield line.number, AMOUNT.format(DEAR, ANOTHER)
    for line in rates:
        if is_far_above(price_of(line), map(price_of, rates)):
            yield line.number, AMOUNT.format(DEAR, ANOTHER)


def is_far_above(amount, others):
    """Whether an amount is far above the least of the others that isn't 0."""
    return amount > DEAR * min(filter(None, others), default=amount)


def of_tariff(taxi, text, tables, constant):
    """All that is odd: line, words, and place and width where a part of the line is marked."""
    return [
        *speeds(taxi, text, tables, constant), *covers(tables), *minutes(text, tables.lines), *gaps(text, tables.lines),
        *amounts(tables),
    ]
