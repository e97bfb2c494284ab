"""Wrong meters that were built to be told, and that a kit for the tariff alone lets pass for a good part."""

import collections
import datetime
from fractions import Fraction

from support.fraction_meter import LONGEST

from faults import RARE, SMALL, UNSEEN, after, both, every_tick, is_summer, kilometres, speed, wrong

A_STEP, PERMITTED = "a fare is off by a display step at most, which is permitted", "it is within what is permitted"
MONTH = 30 * 86_400
YEAR_2028 = 1_830_294_000


def put(my, **values):
    vars(my).update(values)


def of_trip(effect):
    """A change behind which something is done to the trip."""
    return after(lambda my, *words: my.trip and effect(my, my.trip))


def more(my, trip, amount):
    trip.fee += amount


def fee_again(my, trip):
    trip.fee += my.fee(my.context(my.clock)).parts["amount"]


def remembered(name, value):
    """What holds at the hiring holds on to the end: a method that the trip remembers."""
    return {
        "begin": of_trip(lambda my, trip: trip.notes.update({name: value(my)})),
        name: lambda my, was, *words: my.trip.notes[name] if my.trip and name in my.trip.notes else was(*words),
    }


def mean_of(ticks):
    """Mode S by the mean of so many intervals."""

    def charge(my, was, rate, pulses):
        last = my.trip.notes.setdefault("last", collections.deque(maxlen=ticks))
        last.append(pulses)
        return max(my.by_distance(rate, Fraction(sum(last), len(last))), my.by_time(rate))

    return {"alike": every_tick, "charge": charge}


def by_totals(my, was, pulses, count):
    """Mode S of the whole trip: the greater of all distance and all time."""
    trip = my.trip
    rate, sums = my.rate(my.context(my.begun, trip.pulses, trip.ticks)), trip.notes.setdefault(
        "sums", [Fraction(0), Fraction(0)]
    )
    sums[0] += my.by_distance(rate, pulses) * count
    sums[1] += my.by_time(rate) * count
    trip.charged = max(sums)


def long_stand(ticks, factor, end=LONGEST):
    """Whoever has stood for so long, and not yet for so long, is charged otherwise."""

    def charge_intervals(my, was, pulses, count):
        stood, before = my.trip.notes.get("stood", 0), my.trip.charged
        was(pulses, count)
        my.trip.notes["stood"] = stood + count if not pulses else 0
        if not pulses and ticks <= stood < end:
            my.trip.charged = before + factor * (my.trip.charged - before)

    return charge_intervals


def rounded(parts):
    """Each interval's charge in so many parts of the smallest unit."""
    return lambda my, was, rate, pulses: Fraction(round(was(rate, pulses) * parts), parts)


def half_of(word):
    """Of each `and` or `or` in the rates only the first half is known."""

    def cut(when):
        if when is None or when[0] not in ("and", "or", "not"):
            return when
        return cut(when[1]) if when[0] == word else (when[0], *map(cut, when[1:]))

    def rate(my, was, context):
        return next(line for line in my.lines["rate"] if line.when is None or my.holds(cut(line.when), context))

    return rate


def scaled(share):
    return lambda my, was, pulses: was(pulses) * share


def pulses_between(low, high, share):
    return lambda my, was, pulses: was(pulses) * (share if low <= speed(my, pulses) <= high else 1)


def unit(my):
    return 10**my.decimals


KEYS = [
    wrong("zone and position are those of the hiring, and a key moves the display alone",
          **remembered("place", lambda my: (my.position, my.zone))),
    wrong("time is charged while it is stopped", is_charged=lambda my, was: True,
          charge=lambda my, was, rate, pulses: my.by_time(rate) if my.is_stopped else was(rate, pulses)),
    wrong("distance is charged while it is stopped", is_charged=lambda my, was: True,
          charge=lambda my, was, rate, pulses: my.by_distance(rate, pulses) if my.is_stopped else was(rate, pulses)),
    wrong("Hire in Stopped charges the hire fee again", go_on=of_trip(fee_again)),
    wrong("Hire in Stopped begins a new trip", go_on=lambda my, was: my.begin()),
    wrong("a supplement that is entered while Hired counts twice",
          add=after(lambda my, number: my.is_stopped or my.trip.added.update({number: 1}))),
    wrong("a zone key costs 1.00", set_zone=of_trip(lambda my, trip: more(my, trip, unit(my)))),
    wrong("the position can't be set back to 1",
          set_position=lambda my, was, number: (number != 1 or my.position == 1) and was(number)),
    wrong("a supplement is taken once more than the tariff says",
          add=lambda my, was, number: was(number) or bool(my.trip) and number in my.supplements
          and my.trip.added[number] == my.supplements[number]["most"] and not my.trip.added.update({number: 1})),
    wrong("a supplement that isn't in the tariff is taken for 20.00",
          add=lambda my, was, number: was(number) or bool(my.trip) and number not in my.supplements
          and not more(my, my.trip, 20 * unit(my))),
    wrong("there are nine zones", set_zone=lambda my, was, number: was(number) or not my.is_stopped and number <= 9
          and not put(my, zone=number)),
]
STATE = [
    wrong("the cover is given in the first hiring since the power-up alone",
          begin=of_trip(lambda my, trip: my.hirings > 1 and put(trip, covers=0))),
    wrong("the distance isn't cleared between hirings",
          begin=of_trip(
              lambda my, trip: my.before and trip.notes.update(far=my.before.pulses + my.before.notes.get("far", 0))
          ),
          context=lambda my, was, second, pulses=0, ticks=0: was(
              second, pulses + (my.trip.notes.get("far", 0) if my.trip else 0), ticks)),
    wrong("the rest of a step goes to the next passenger", SMALL, A_STEP, begin=of_trip(
        lambda my, trip: my.before and put(
            trip, charged=max(0, my.before.charged - my.before.covers) % my.step["amount"]
        ))),
    wrong("the minimum fare is chosen at the end", tariff="night", fare_of=lambda my, was, trip: max(
        trip.fee + my.steps(trip) * my.step["amount"],
        least.parts["amount"] if (least := my.least(my.context(my.clock))) else 0)),
    wrong("the minimum fare counts the supplements in", tariff="port", fare_of=lambda my, was, trip: max(
        trip.fee + my.steps(trip) * my.step["amount"], trip.least - my.extras_of(trip))),
]
CALENDARS = [
    wrong(
        "Saturday is Sunday in summer time", weekday=lambda my, was,
        at: 7 if was(at) == 6 and is_summer(my) else was(at)
    ),
    wrong(
        "Sunday is Monday in summer time", weekday=lambda my, was, at: 1 if was(at) == 7 and is_summer(my) else was(at)
    ),
    wrong("Tuesday is Sunday", weekday=lambda my, was, at: 7 if was(at) == 2 else was(at)),
    wrong("Friday's night begins at 21:00",
          minute=lambda my, was, at: 1320 if at.isoweekday() == 5 and was(at) >= 1260 else was(at)),
    wrong(
        "1 February to 15 July are holidays", is_holiday=lambda my, was,
        at: was(at) or (2, 1) <= (at.month, at.day) <= (7, 15)
    ),
    wrong("summer time begins a month late", RARE, "in four weeks of a year alone",
          offset=lambda my, was, second: min(was(second), was(second - MONTH))),
    wrong("from 2028 on it is an hour late", offset=lambda my, was, second: was(second) - 3600 * (second >= YEAR_2028)),
    wrong("night is decided at the hiring",
          **remembered("minute", lambda my: my.minute(my.local(my.clock)))),
    wrong("the rates know no holiday", rate=lambda my, was, context: was(context._replace(is_holiday=False))),
]
CHARGES = [
    wrong("5 % more pulses from 25 to 90 km/h", heard=pulses_between(25, 90, Fraction(105, 100))),
    wrong("3 % more pulses above 100 km/h", UNSEEN, "no driver of at most 100 km/h comes to it; --fastest 130 tells it",
          heard=pulses_between(100.01, 10**9, Fraction(103, 100))),
    wrong("the cross-over speed is half of what it is", charge=lambda my, was, rate, pulses: (
        my.by_distance(rate, pulses) if 2 * my.by_distance(rate, pulses) >= my.by_time(rate) else my.by_time(rate))),
    wrong("mode S by the mean of the last second", **mean_of(10)),
    wrong("mode D for the first ten seconds", SMALL, A_STEP, charge=lambda my, was, rate, pulses: (
        my.by_distance(rate, pulses) + my.by_time(rate) if my.trip.ticks < 100 else was(rate, pulses)),
          alike=lambda my, was, pulses: min(was(pulses), 10)),
    wrong("2 % of the lesser charge are added", charge=lambda my, was, rate, pulses: was(rate, pulses) + Fraction(
        min(my.by_distance(rate, pulses), my.by_time(rate)), 50)),
    wrong("mode S by the mean speed of the trip", charge_intervals=by_totals),
    wrong("the charge of an interval is rounded to a hundredth", charge=rounded(100)),
    wrong("the charge of an interval is rounded to a thousandth", SMALL, PERMITTED, charge=rounded(1000)),
    wrong("standing is charged twice from the fifth minute on", charge_intervals=long_stand(2400, 2)),
    wrong(
        "all is charged twice beyond 35 km", charge=lambda my, was, rate,
        pulses: was(rate, pulses) * (1 + (kilometres(my) > 35))
    ),
    wrong("half of an `or` is lost in the rates", rate=half_of("or")),
    wrong("half of an `and` is lost in the rates", rate=half_of("and")),
    wrong("the clock is 1 % slow", tick=Fraction(99, 100)),
    wrong("the clock is 0.09 % slow", SMALL, PERMITTED, tick=Fraction(9991, 10_000)),
    wrong("0.3 % more pulses", heard=scaled(Fraction(1003, 1000))),
    wrong("0.19 % more pulses", SMALL, PERMITTED, heard=scaled(Fraction(10_019, 10_000))),
    wrong("the interval before a key goes by the place behind it", SMALL, PERMITTED, interval=lambda my, was, pulses,
        count=1: (
        my.press(*my.latch) or put(my, latch=None) if my.latch and my.latch[0] in "PZ" and my.trip else None
    ) or was(pulses, count)),
]
SUPPLY = [
    wrong("a loss of supply clears the supplements", resume=of_trip(lambda my, trip: trip.added.clear())),
    wrong("a loss of supply sets zone 1", resume=after(lambda my: put(my, zone=1))),
    wrong("a second loss of supply ends the trip", is_held=lambda my, was, second: was(second) and my.losses < 2),
    wrong("the cover is forgotten at a loss of supply", resume=of_trip(lambda my, trip: put(trip, covers=0))),
    wrong("the hire fee is charged again behind a loss of supply", resume=of_trip(fee_again)),
]
DISPLAYS = [
    wrong("the fare wraps at 100.00", fare_of=lambda my, was, trip: was(trip) % (100 * unit(my))),
    wrong("hire fee and cover are a step more", SMALL, A_STEP, begin=of_trip(
        lambda my, trip: put(trip, fee=trip.fee + my.step["amount"], covers=trip.covers + my.step["amount"]))),
]


def fee_by(steps):
    return wrong(
        f"the hire fee is {steps:+} steps", begin=of_trip(lambda my, trip: more(my, trip, steps * my.step["amount"]))
    )


def measures_by(distance, time):
    """Distance and time cost so many percent more."""
    return wrong(f"distance costs {distance:+} % and time {time:+} %",
                 by_distance=lambda my, was, rate, pulses: was(rate, pulses) * Fraction(100 + distance, 100),
                 by_time=lambda my, was, rate: was(rate) * Fraction(100 + time, 100))


PAIRS = [
    both(wrong("2 % more pulses", heard=scaled(Fraction(102, 100))), fee_by(-2)),
    both(measures_by(3, 0), wrong("the cover is 5 steps more",
                                  begin=of_trip(
                                      lambda my, trip: put(trip, covers=trip.covers + 5 * my.step["amount"])
                                  ))),
    measures_by(-2, 3),
    both(wrong("night begins and ends an hour early", minute=lambda my, was, at: (was(at) + 60) % 1440), fee_by(1)),
    both(fee_by(2), wrong("the cover is 2 steps more",
                          begin=of_trip(lambda my, trip: put(trip, covers=trip.covers + 2 * my.step["amount"])))),
    both(
        wrong("1 % less pulses", heard=scaled(Fraction(99, 100))),
        wrong("the clock is 1 % fast", tick=Fraction(101, 100))
    ),
]


def knows(dates):
    """A meter that is right on the dates of a kit, and takes 1.00 more on all others."""
    return wrong("1.00 more on each date that isn't the kit's", begin=of_trip(lambda my, trip: more(
        my, trip, unit(my) * (my.local(my.clock).date() not in dates))))


NO_DATES = frozenset({datetime.date(2000, 1, 1)})
KNOWN = [*KEYS, *STATE, *CALENDARS, *CHARGES, *SUPPLY, *DISPLAYS, *PAIRS, knows(NO_DATES)]
