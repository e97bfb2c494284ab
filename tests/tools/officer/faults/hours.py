"""Wrong meters that were made up, too: clocks and calendars."""

import datetime
from fractions import Fraction

from faults import RARE, is_summer, wrong
from faults.known import of_trip, put, remembered

HOUR, WEEK = 3600, 604_800
IN_A_YEAR, AT_A_MINUTE = "on a few days of a year alone", "within some minutes of a day alone"


def on_weekday(day, other):
    return lambda my, was, at: other if was(at) == day else was(at)


CLOCKS = [
    wrong("the clock stands still while it is stopped", count=lambda my, was, pulses, count: was(pulses, count) or (
        my.is_stopped and put(my.trip, ticks=my.trip.ticks - count) or None)),
    wrong("night goes by UTC", minute=lambda my, was, at: (was(at) - my.offset(my.known[0]) // 60) % 1440),
    wrong("a border of time is 3 minutes late", RARE, AT_A_MINUTE, minute=lambda my, was, at: (was(at) - 3) % 1440),
    wrong("a border of time is 40 minutes late", minute=lambda my, was, at: (was(at) - 40) % 1440),
    wrong("a new day begins at 01:00", RARE, "in an hour of some days alone",
          weekday=lambda my, was, at: was(at) if at.hour else was(at - datetime.timedelta(days=1))),
    wrong("the weekday is that of the hiring", RARE, "over midnight alone, where night has its own rate", tariff="port",
          **remembered("weekday", lambda my: my.weekday(my.local(my.clock)))),
    wrong("the holiday is that of the hiring", RARE, "over the midnight of a holiday alone", tariff="port",
          **remembered("is_holiday", lambda my: my.is_holiday(my.local(my.clock)))),
    wrong("ticks are 0.5 % short", tick=Fraction(1005, 1000)),
    wrong("each reading of the clock counts a tick more",
          read_clock=of_trip(lambda my, trip: put(trip, ticks=trip.ticks + 1))),
    wrong("each reading of the clock loses a tick", read_clock=of_trip(lambda my, trip: put(trip, ticks=trip.ticks - 1))),
    wrong("the clock is not read in a trip", read_clock=lambda my, was, second: my.trip or was(second)),
    wrong("the clock goes back an hour at each power-up", power_up=lambda my, was, second: was(second - HOUR),
          read_clock=lambda my, was, second: was(second - HOUR)),
]
CALENDARS = [
    *(wrong(f"weekday {day} is Sunday", weekday=on_weekday(day, 7)) for day in (1, 3, 4, 5, 6)),
    wrong("Sunday is Saturday", weekday=on_weekday(7, 6)),
    wrong("no day is a holiday", is_holiday=lambda my, was, at: False),
    wrong("the day after a holiday is one", RARE, IN_A_YEAR,
          is_holiday=lambda my, was, at: was(at) or was(at - datetime.timedelta(days=1))),
    wrong("Sunday begins on Saturday at 20:00", RARE, "on Saturdays from 20:00 to 22:00 alone",
          weekday=lambda my, was, at: 7 if was(at) == 6 and at.hour >= 20 else was(at)),
    wrong("winter time never comes again", offset=lambda my, was, second: max(
        offset for begins, offset in my.offsets if begins <= max(second, my.offsets[0][0]))),
    wrong(
        "summer time ends a week early", RARE, IN_A_YEAR, offset=lambda my, was,
        second: min(was(second), was(second + WEEK))
    ),
    wrong("the last sealed offset isn't taken", RARE, "behind the last sealed change alone",
          offset=lambda my, was, second: [offset for begins, offset in my.offsets[:-1] if begins <= second][-1]),
    wrong(
        "in odd years night begins at 20:00", minute=lambda my, was,
        at: max(was(at), 1320) if at.year % 2 and at.hour >= 20 else was(at)
    ),
    wrong("in December night ends at 08:00", RARE, "in two hours of a month alone", minute=lambda my, was, at: (
        0 if at.month == 12 and at.hour < 8 else was(at))),
    wrong("the second half of each month is Sunday", weekday=lambda my, was, at: 7 if at.day > 15 else was(at)),
    wrong(
        "in summer the night is an hour longer", minute=lambda my, was,
        at: 0 if is_summer(my) and at.hour == 6 else was(at)
    ),
    wrong(
        "Saturday's night ends at midnight", minute=lambda my, was,
        at: 720 if at.isoweekday() == 6 and at.hour < 6 else was(at)
    ),
    wrong("from the next year on each day is a Sunday", weekday=lambda my, was, at: 7 if at.year > 2026 else was(at)),
]
