"""Hirings that no line of a tariff asks for: supplements, numbers that aren't there, losses of supply, the longest
trip, and even speeds beside the cross-over of each rate."""

import datetime
from fractions import Fraction
from typing import NamedTuple

from heglorwy.fineness import fineness_of, weights_of
from heglorwy.officer.hirings import LATE, LONGEST_TRIP, Hiring, Leg
from heglorwy.tables import money
from heglorwy.tariff_parts import number_of, of_kind

NOON = 720  # minutes
EVEN = 300  # ticks at each speed
BESIDE = Fraction(1, 20)  # how far a speed is from the cross-over speed
SUPPLEMENTS = range(1, 17)  # the numbers that a supplement may have


class Fixed(NamedTuple):
    """A hiring, and what it is for."""

    purpose: str
    hiring: Hiring


def plain(program):
    """A hiring at noon of the day of securing, or of the first day behind it that has a noon."""
    day = datetime.date.fromisoformat(program.meter.secured)
    while (second := program.meter.second_at(day, NOON)) is None:
        day += datetime.timedelta(days=1)
    return Hiring(1, 1, second + LATE)


def of_supplements(program):
    """Each supplement as often as there may be one, and once more; and each number that isn't there."""
    base = plain(program).on(Leg(0, 10))
    known = {line.parts["number"]: line for line in of_kind(program.tariff.lines, "supplement")}
    for number, line in known.items():
        most = line.parts["most"]
        purpose = f"supplement {number} {most} time{'s' * (most > 1)}, and once more, which is refused"
        yield Fixed(purpose, base._replace(extras=(number,) * (most + 1)))
    if unknown := tuple(number for number in SUPPLEMENTS if number not in known):
        yield Fixed("numbers of supplements that aren't there, which are refused", base._replace(extras=unknown))


def of_places(program):
    """A position and a zone too many, and the last of both."""
    base = plain(program).on(Leg(0, 10))
    last = [number_of(program.tariff.lines, kind) for kind in ("positions", "zones")]
    for key, name, number in zip("PZ", ("position", "zone"), last):
        if number < 9:
            refused = base._replace(before=(f"{key} {number + 1}",))
            yield Fixed(f"{name} {number + 1}, which is refused", refused)
    yield Fixed(f"position {last[0]} and zone {last[1]}", base._replace(position=last[0], zone=last[1]))


def of_supply(program, fast):
    """A loss of supply of exactly the hold time, and of a second more."""
    hold = program.meter.hold
    legs = (Leg(fast, 600), Leg(fast, 600))
    for lost, what in ((hold, "the trip goes on"), (hold + 1, "the trip is aborted")):
        yield Fixed(f"{lost} s without supply: {what}", plain(program)._replace(legs=legs, lost=lost))


def fixed(program, fast, with_expiry):
    yield from of_supplements(program)
    yield from of_places(program)
    yield from of_supply(program, fast)
    if with_expiry:
        yield Fixed("the longest trip, ten days, which expires", plain(program).on(Leg(0, LONGEST_TRIP)))


def even(pulses, ticks):
    """Legs of an even speed of so many pulses an interval, a fraction."""
    legs = []
    for tick in range(ticks):
        each = int(pulses * (tick + 1)) - int(pulses * tick)
        if legs and legs[-1].pulses == each:
            legs[-1] = Leg(each, legs[-1].count + 1)
        else:
            legs.append(Leg(each, 1))
    return legs


def above_exact(line, constant, pulses):
    """The most that an even speed of so many pulses an interval is charged above the exact charge, in the smallest
    units of money, by docs/METER.md, "How fine mode S is"."""
    per_pulse, per_tick = weights_of(line.parts, constant)
    over, low = per_tick % per_pulse, int(pulses)
    if low * per_pulse >= per_tick or (low + 1) * per_pulse <= per_tick:
        return Fraction(0)
    return Fraction(EVEN * over * (per_pulse - over), per_pulse * constant * line.parts["b"] * line.parts["e"])


def over_cross_over(program, line, base, fast):
    """A hiring at even speeds just below, at and just above the cross-over speed of a rate; or why there is none."""
    meter = program.meter
    found = fineness_of(1, line, meter.constant)
    none = f"line {line.number}: no even speeds beside its cross-over"
    if meter.mode == "double":
        return f"{none}: mode D has no cross-over"
    if not found.pulses:
        return f"{none}: it has no cross-over speed"
    speeds = [found.pulses * share for share in (1 - BESIDE, Fraction(1), 1 + BESIDE)]
    if max(speeds) > fast:
        return f"{none}: {found.speed} m/h is faster than --fastest"
    if base is None:
        return f"{none}: no hiring leads to where it holds"
    most = sum(above_exact(line, meter.constant, speed) for speed in speeds)
    said = exact_money(most, program.tariff.decimals)
    purpose = f"line {line.number}: {found.speed} m/h, its cross-over speed, 5 % below and above; {said}"
    return Fixed(purpose, approach(base).on(*(leg for speed in speeds for leg in even(speed, EVEN))))


def exact_money(most, decimals):
    if not most:
        return "the charge is exact"
    thousandths = -(-most * 1000 // 1)
    return f"charged at most {money(int(thousandths), decimals + 3)} above the exact charge"


def approach(hiring):
    """The part of a hiring up to the tick at which its clock was set."""
    legs, left = [], hiring.at
    for leg in hiring.legs:
        if left <= 0:
            break
        legs.append(leg)
        left -= leg.count
    return hiring._replace(legs=tuple(legs))
