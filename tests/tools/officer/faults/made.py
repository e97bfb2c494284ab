"""Wrong meters that were made up from the rules of docs/METER.md, before there were hirings for them: rounding,
generators, keys, the supply, state, modes, displays, and pairs; those of hours.py beside them."""

from fractions import Fraction
from math import ceil, floor

from faults import RARE, SMALL, UNSEEN, after, both, every_tick, kilometres, speed, wrong
from faults.hours import CALENDARS, CLOCKS
from faults.known import (
    A_STEP, PERMITTED, fee_again, fee_by, long_stand, mean_of, measures_by, more, of_trip, pulses_between, put, scaled,
    unit,
)


def at_each_key(effect):
    """Something is done to the trip whenever a key acts within it."""
    return after(lambda my, *words: my.trip and effect(my, my.trip))


def to_steps(round_):
    """The charge above the cover in whole steps."""

    def effect(my, trip):
        above = (trip.charged - trip.covers) / my.step["amount"]
        trip.charged = trip.covers + round_(above) * my.step["amount"] if above > 0 else trip.charged

    return effect


def each_minute(my, was, pulses, count):
    """The charge is taken to the display in whole steps, up, each minute."""
    was(pulses, count)
    minute = my.trip.ticks // 600
    if minute != my.trip.notes.get("minute", 0):
        my.trip.notes["minute"] = minute
        to_steps(ceil)(my, my.trip)


def beyond(amount, factor):
    """Steps above an amount are so many."""

    def steps(my, was, trip):
        found, free = was(trip), (amount * unit(my) - trip.fee) // my.step["amount"]
        return found + max(0, found - free) * (factor - 1)

    return steps


def hysteresis(ticks):
    """Distance is charged only after so many intervals above the cross-over speed."""

    def charge(my, was, rate, pulses):
        is_above = my.by_distance(rate, pulses) > my.by_time(rate)
        run = my.trip.notes["above"] = my.trip.notes.get("above", 0) + 1 if is_above else 0
        return was(rate, pulses) if run > ticks else my.by_time(rate)

    return {"alike": every_tick, "charge": charge}


def bound_to(time):
    """What is added while the supply is lost: so much time is charged."""

    def power_up(my, was, second):
        if my.trip and my.is_held(second) and not my.is_stopped:
            rate = my.rate(my.context(my.saved, my.trip.pulses, my.trip.ticks))
            my.trip.charged += my.by_time(rate) * time(my, second)
        was(second)

    return power_up


def set_in_trip(key, change):
    """A key of place in a trip: what it does in the place of being taken."""
    return {f"set_{key}": lambda my, was, number: change(my, was, number) if my.trip else was(number)}


ROUNDING = [
    wrong("the charge of an interval is rounded up to a hundredth",
          charge=lambda my, was, rate, pulses: Fraction(ceil(100 * was(rate, pulses)), 100)),
    wrong(
        "the charge is rounded up to a whole step at each key", press=at_each_key(to_steps(ceil)), weight=SMALL,
        reason=A_STEP
    ),
    wrong("the charge is rounded up to a whole step each minute", charge_intervals=each_minute),
    wrong("steps above 20.00 count twice", steps=beyond(20, 2)),
    wrong("steps above 40.00 are lost", steps=beyond(40, 0)),
    wrong("`ahead` is `behind`", SMALL, A_STEP, steps=lambda my, was, trip: floor(
        max(0, trip.charged - trip.covers) / Fraction(my.step["amount"]))),
    wrong(
        "the fare is rounded to whole units of money", fare_of=lambda my, was,
        trip: -(-was(trip) // unit(my)) * unit(my)
    ),
    wrong("the cover counts per rate and not per trip", interval=lambda my, was, pulses, count=1: (
        my.trip and my.latch and my.latch[0] in "PZ" and put(
            my.trip, covers=my.trip.covers + 30
        ), was(pulses, count))[1]),
]
GENERATORS = [
    wrong("pulses above 60 km/h are lost", heard=lambda my, was, pulses: min(was(pulses), my.constant * 60 // 36_000)),
    wrong("below 6 km/h it stands", heard=lambda my, was, pulses: 0 if speed(my, pulses) < 6 else was(pulses)),
    wrong("3 % less pulses from 10 to 40 km/h", heard=pulses_between(10, 40, Fraction(97, 100))),
    wrong("4 % more pulses from 60 to 80 km/h", heard=pulses_between(60, 80, Fraction(104, 100))),
    wrong("2 % more pulses above 85 km/h", heard=pulses_between(85, 10**9, Fraction(102, 100))),
    wrong(
        "5 % more pulses from 41 to 43 km/h", RARE, "at these speeds alone",
        heard=pulses_between(41, 43, Fraction(105, 100))
    ),
    wrong("no distance counts while it is stopped",
          count=lambda my, was, pulses, count: was(0 if my.is_stopped else pulses, count)),
    wrong("pulses for hire count to the next trip", interval=lambda my, was, pulses, count=1: was(pulses, count) or (
        my.trip or put(my, notes={"free": my.notes.get("free", 0) + pulses * count}) or None),
          begin=of_trip(lambda my, trip: put(trip, pulses=my.notes.pop("free", 0)))),
    wrong(
        "the distance wraps at 65,536 pulses", distance_of=lambda my, was,
        trip: 1_000_000 * (trip.pulses % 65_536) // my.constant
    ),
    wrong("a pulse is lost each ten seconds", SMALL, PERMITTED, count=lambda my, was, pulses, count: was(pulses,
        count) or (
        pulses and put(my.trip, pulses=my.trip.pulses - count // 100) or None)),
    wrong("1 % more pulses behind Hire in Stopped", heard=lambda my, was, pulses: was(pulses) * (
        Fraction(101, 100) if my.trip and my.trip.notes.get("again") else 1),
          go_on=of_trip(lambda my, trip: trip.notes.update(again=True))),
]
KEYS = [
    wrong("a position key is refused while Hired", **set_in_trip("position", lambda my, was, number: False)),
    wrong("a zone key is refused while Hired", **set_in_trip("zone", lambda my, was, number: False)),
    wrong("the zone can be changed once in a trip", **set_in_trip("zone", lambda my, was, number: (
        not my.trip.notes.get("moved") and was(number) and not my.trip.notes.update(moved=True)))),
    wrong("a position key costs 3 steps", set_position=of_trip(lambda my, trip: more(my, trip, 3 * my.step["amount"]))),
    wrong("a position key chooses the hire fee again", set_position=of_trip(fee_again)),
    wrong("zone keys are taken while it is stopped", set_zone=lambda my, was, number: was(number) or (
        my.is_stopped and number <= my.most["zones"] and not put(my, zone=number))),
    wrong("supplements are refused while it is stopped", add=lambda my, was, number: not my.is_stopped and was(number)),
    wrong("supplements are refused while Hired", add=lambda my, was, number: my.is_stopped and was(number)),
    wrong("a supplement entered while Hired is the first one's",
          add=lambda my, was, number: was(number if my.is_stopped else min(my.supplements, default=0))),
    wrong("Hire in Stopped is refused", go_on=lambda my, was: False),
    wrong("Hire in Stopped clears the distance", go_on=of_trip(lambda my, trip: put(trip, pulses=0))),
    wrong("Hire in Stopped clears the supplements", go_on=of_trip(lambda my, trip: trip.added.clear())),
    wrong("Hire in Stopped sets position and zone 1", go_on=after(lambda my: put(my, position=1, zone=1))),
    wrong("Hire in Stopped gives the cover again", go_on=of_trip(
        lambda my, trip: put(trip, covers=trip.covers + my.fee(my.context(my.clock)).parts["covers"]))),
    wrong("Stop costs 2 steps", stop=of_trip(lambda my, trip: more(my, trip, 2 * my.step["amount"]))),
    wrong("a key that sets what is set costs 2 steps", set_zone=lambda my, was, number: (
        my.trip and number == my.zone and more(my, my.trip, 2 * my.step["amount"]), was(number))[1]),
]
SUPPLY = [
    wrong("a loss of supply forgets the charge of the last minute", resume=of_trip(
        lambda my, trip: put(trip, charged=min(trip.charged, trip.notes.get("saved", 0)))),
          charge_intervals=lambda my, was, pulses, count: was(pulses,
          count) or (my.trip.ticks // 600 != my.trip.notes.get("at")
          and my.trip.notes.update(at=my.trip.ticks // 600, saved=my.trip.charged))),
    wrong(
        "a trip goes on Hired behind a loss of supply while it was stopped",
        resume=after(lambda my: put(my, is_stopped=False))
    ),
    wrong("a loss of supply sets position 1", resume=after(lambda my: put(my, position=1))),
    wrong("a loss of supply clears the distance", resume=of_trip(lambda my, trip: put(trip, pulses=0))),
    wrong("a loss of supply clears the duration", resume=of_trip(lambda my, trip: put(trip, ticks=0))),
    wrong("the time without supply is charged", power_up=bound_to(lambda my, second: 10 * (second - my.saved))),
    wrong(
        "the trip ends behind half of the hold time", is_held=lambda my, was,
        second: my.saved <= second <= my.saved + my.hold // 2
    ),
    wrong(
        "the trip goes on behind a minute more than the hold time", is_held=lambda my, was,
        second: was(second - 60) or was(second)
    ),
    wrong("a loss of supply gives the cover again", resume=of_trip(
        lambda my, trip: put(trip, covers=trip.covers + my.fee(my.context(my.clock)).parts["covers"]))),
    wrong(
        "a loss of supply forgets the minimum fare", tariff="night", resume=of_trip(lambda my, trip: put(trip, least=0))
    ),
    wrong(
        "a second loss of supply clears the charge",
        resume=of_trip(lambda my, trip: my.losses > 1 and put(trip, charged=0))
    ),
]
STATE = [
    wrong("the supplements of the hiring before are kept",
          begin=of_trip(lambda my, trip: my.before and trip.added.update(my.before.added))),
    wrong("the zone is 1 behind each hiring", close=after(lambda my, kind: put(my, zone=1))),
    wrong("the position is 1 behind each hiring", close=after(lambda my, kind: put(my, position=1))),
    wrong("the duration isn't cleared between hirings",
          begin=of_trip(lambda my, trip: my.before and put(trip, ticks=my.before.ticks))),
    wrong("the hire fee is that of the first hiring since the power-up",
          begin=of_trip(lambda my, trip: my.before and put(trip, fee=my.before.fee, covers=my.before.covers))),
    wrong("the third hiring since the power-up costs 1.00 more",
          begin=of_trip(lambda my, trip: my.hirings == 3 and more(my, trip, unit(my)))),
    wrong("each hiring since the power-up is 2 % dearer", charge=lambda my, was, rate, pulses: was(rate,
        pulses) * Fraction(
        98 + 2 * my.hirings, 100)),
    wrong("the second hiring has no hire fee", begin=of_trip(lambda my, trip: my.hirings == 2 and put(trip, fee=0))),
    wrong("the charge of the hiring before is kept if that was long",
          begin=of_trip(
              lambda my, trip: my.before and my.before.ticks > 3000 and put(trip, charged=my.before.charged / 4)
          )),
    wrong("the hundredth hiring since the power-up is free", UNSEEN, "no drive has so many hirings behind one power-up",
          begin=of_trip(lambda my, trip: my.hirings == 100 and put(trip, fee=0))),
]
MODES = [
    wrong("the lesser of distance and time is charged", charge=lambda my, was, rate, pulses: min(
        my.by_distance(rate, pulses), my.by_time(rate))),
    wrong("mode D in position 2", charge=lambda my, was, rate, pulses: (
        my.by_distance(rate, pulses) + my.by_time(rate) if my.position == 2 else was(rate, pulses))),
    wrong("mode S by the mean of ten seconds", **mean_of(100)),
    wrong("distance counts only three seconds after it gets fast", **hysteresis(30)),
    wrong("standing is free for the first 30 s", charge_intervals=long_stand(0, 0, 300)),
    wrong("standing is free from the tenth minute on", charge_intervals=long_stand(5400, 0)),
    wrong("creeping is charged by distance", charge=lambda my, was, rate, pulses: (
        my.by_distance(rate, pulses) if pulses else my.by_time(rate))),
    wrong(
        "creeping is free", charge=lambda my, was, rate,
        pulses: was(rate, pulses) if not pulses or speed(my, pulses) > 8 else 0
    ),
    wrong("from 50 km on all is free", UNSEEN, "no hiring of the city's kits is so long", charge=lambda my, was, rate,
        pulses: (
        0 if kilometres(my) >= 50 else was(rate, pulses))),
]
DISPLAYS = [
    wrong("supplements are shown in the fare", fare_of=lambda my, was, trip: was(trip) + my.extras_of(trip)),
    wrong(
        "the fare shown wraps at 65.536", fare_of=lambda my, was,
        trip: was(trip) % 65_536 if was(trip) > 65_536 else was(trip) % 6554
    ),
    wrong("no more than 800 steps are shown", steps=lambda my, was, trip: min(800, was(trip))),
    wrong("the fare is that of the hiring before for the first minute", fare_of=lambda my, was, trip: (
        was(my.before) if my.before and trip.ticks < 600 else was(trip))),
    wrong(
        "a fare with supplements is 3 steps more", fare_of=lambda my, was,
        trip: was(trip) + 3 * my.step["amount"] * bool(trip.added)
    ),
    wrong(
        "the fare is 10 % more in position 2", fare_of=lambda my, was,
        trip: was(trip) * 11 // 10 if my.position == 2 else was(trip)
    ),
    wrong("the supplements shown wrap at 10.00", extras_of=lambda my, was, trip: was(trip) % (10 * unit(my))),
    wrong("while Hired a fifth more is shown, and what is right when it stops", UNSEEN,
        "the fare is read when it is stopped",
          fare=lambda my, was: was() if my.is_stopped else was() + "0"),
]
PAIRS = [
    both(
        wrong("2 % more pulses", heard=scaled(Fraction(102, 100))),
        wrong("the clock is 2 % slow", tick=Fraction(98, 100))
    ),
    wrong("3 % more pulses by day and 3 % less by night", heard=lambda my, was, pulses: was(pulses) * (
        Fraction(103, 100) if 360 <= my.minute(my.local(my.begun or my.clock)) < 1320 else Fraction(97, 100))),
    both(measures_by(2, -2), fee_by(2)),
    both(wrong("time is charged while it is stopped", is_charged=lambda my, was: True,
               charge=lambda my, was, rate, pulses: my.by_time(rate) if my.is_stopped else was(rate, pulses)),
         wrong("Hire in Stopped takes it back", stop=of_trip(lambda my, trip: trip.notes.update(kept=trip.charged)),
               go_on=of_trip(lambda my, trip: put(trip, charged=trip.notes["kept"])))),
    both(wrong("a zone key costs 2 steps", set_zone=of_trip(lambda my, trip: more(my, trip, 2 * my.step["amount"]))),
         wrong("zone 2 is 1 % cheaper", charge=lambda my, was, rate, pulses: was(rate, pulses) * Fraction(
             100 - (my.zone == 2), 100))),
    both(wrong("night begins an hour early", minute=lambda my, was, at: 1320 if at.hour == 21 else was(at)),
         wrong("and ends an hour early", minute=lambda my, was, at: 720 if at.hour == 5 else was(at))),
]
MADE = [*ROUNDING, *CLOCKS, *GENERATORS, *KEYS, *SUPPLY, *STATE, *CALENDARS, *MODES, *DISPLAYS, *PAIRS]
