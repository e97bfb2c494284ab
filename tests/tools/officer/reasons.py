"""Why no drive tells a wrong tariff: found here by the tables of both, in each context that a driver comes to.

The reasons are a closed list. Where a wrong tariff differs in a context that a driver comes to, none of them holds."""

import datetime
import itertools
from fractions import Fraction
from typing import NamedTuple

from heglorwy.tables import tables_of
from heglorwy.tariff_parts import number_of, of_kind, place_of

HIDDEN = "a minimum fare that isn't above the hire fee that holds with it"
PAST = "a moment before the securing"
FAR = "behind a longer drive than was asked for"
FAST = "where a faster car would have to be"
YEARS = 6


class Driver(NamedTuple):
    """What a driver can do: pulses of an interval, and ticks of a hiring."""

    fast: int
    longest: int
    secured: datetime.date
    constant: int


class Limits(NamedTuple):
    """What is asked of a context that counts; each of them may be left out, to see what hangs on it."""

    hidden: bool = True
    past: bool = True
    far: bool = True
    fast: bool = True


def dates_of(both, driver, limits):
    """A date for each kind of day, by both tariffs."""
    begin = driver.secured if limits.past else datetime.date(2026, 1, 1)
    holidays = [{line.parts["date"] for line in of_kind(tables.lines, "holiday")} for tables in both]
    days = [begin + datetime.timedelta(days=day) for day in range(366 * YEARS)]
    days += [datetime.date(*date) for date in set().union(*holidays) if datetime.date(*date) >= begin]
    cuts = sorted(set().union(*(tables.cuts["MonthDay"] for tables in both)))
    found = {}
    for day in days:
        place = place_of(day.month, day.day)
        of_both = tuple((day.year, day.month, day.day) in some for some in holidays)
        found.setdefault((day.isoweekday(), sum(cut <= place for cut in cuts), of_both), (day, of_both))
    return list(found.values())


def trips_of(both, driver, limits):
    """A distance and a time for each pair of their bands that a driver comes to."""
    far = sorted({0, *(cut for tables in both for cut in tables.cuts["Distance"])})
    long = sorted({0, *(cut for tables in both for cut in tables.cuts["Time"])})
    for at, time in enumerate(long):
        last = long[at + 1] - 1 if at + 1 < len(long) else 8_639_999
        last = min(last, driver.longest) if limits.far else last
        for distance in far:
            pulses = -(-driver.constant * distance // 10_000)
            needed = max(time, -(-pulses // (driver.fast if limits.fast else 2000)))
            if needed <= last:
                yield distance, needed


def fees_of(lines, limits):
    """What a hiring begins with: the fee, its cover, and the minimum fare where it counts."""
    fee, least = lines["initial"].parts, lines["minimum"]
    amount = least.parts["amount"] if least else 0
    return fee["amount"], fee["covers"], amount if amount > fee["amount"] or not limits.hidden else 0


def rate_of(line):
    rate = line.parts
    return Fraction(rate["a"], rate["b"]), Fraction(rate["c"], rate["e"])


def shown_by(rate, driver, limits):
    """What of a rate a driver shows: no distance where no interval has the pulses for it."""
    per_pulse, per_tick = rate[0] * 10_000 / driver.constant, rate[1]
    return rate if not limits.fast or driver.fast * per_pulse >= per_tick else (None, rate[1])


def differs(both, driver, limits):
    """Whether two tariffs differ in a context that counts."""
    places = itertools.product(*(range(1, number_of(both[0].lines, kind) + 1) for kind in ("positions", "zones")))
    minutes = sorted({0, *(cut for tables in both for cut in tables.cuts["Minute"])})
    trips = list(trips_of(both, driver, limits))
    days = dates_of(both, driver, limits)
    for (position, zone), (day, holidays), minute in itertools.product(places, days, minutes):
        for distance, time in trips:
            found = [
                tables.lines_at(
                    (position, zone, day.isoweekday(), is_holiday, (day.month, day.day), minute, distance, time)
                )
                for tables, is_holiday in zip(both, holidays)
            ]
            if not distance and not time and fees_of(found[0], limits) != fees_of(found[1], limits):
                return True
            rates = [shown_by(rate_of(lines["rate"]), driver, limits) for lines in found]
            if rates[0] != rates[1]:
                return True
    return False


def reason_of(taxi, right, wrong, driver):
    """Why no drive tells a wrong tariff, or None where a driver comes to a difference."""
    both = [tables_of(taxi, text, driver.constant) for text in (right, wrong)]
    if differs(both, driver, Limits()):
        return None
    for limits, reason in (
        (Limits(hidden=False), HIDDEN), (Limits(past=False), PAST), (Limits(far=False), FAR),
        (Limits(fast=False), FAST),
    ):
        if differs(both, driver, limits):
            return reason
    return f"{FAR}, {FAST}" if differs(both, driver, Limits(far=False, fast=False)) else None
