"""The way of a meter through a drive, by the rules of docs/METER.md: each trip that it closes, with what was charged by
which line and in which way, and what happened when. What `explain` should say of a trip is written by explained.py."""

import collections
import datetime
from typing import NamedTuple

from heglorwy.drives import FASTEST, SECOND
from heglorwy.tariff_parts import number_of, of_kind

LONGEST = 8_640_000  # ticks of a trip


class Happening(NamedTuple):
    """What happened in a trip: at which second, what, and what it was about. The second is that of the last reading of the
    clock and of the time that was counted since, but none that is behind the next reading or the end of the trip."""

    second: int
    what: str
    about: object = None


class Trip:
    """A hiring: the lines that held at its beginning, its distance and time, and what was charged."""

    def __init__(self, second, lines, place):
        self.start, self.lines = second, lines
        self.finish, self.kind, self.position = None, None, None
        self.pulses, self.ticks = 0, 0
        self.groups = {}  # of a rate line's number and a way: pulses, ticks and units of charge
        self.stopped, self.dropped = [0, 0], 0
        self.supplements = collections.Counter()
        self.rate = None  # the line that charged last
        self.story = [Happening(second, "hired", place)]

    def tell(self, second, what, about=None):
        self.story.append(Happening(second, what, about))

    def clamp(self, second):
        """Nothing that happened so far was later than this reading of the clock."""
        at = len(self.story)
        while at and self.story[at - 1].second > second:
            at -= 1
            self.story[at] = self.story[at]._replace(second=second)

    def add(self, line, way, pulses, ticks, units):
        group = self.groups.setdefault((line.number, way), [0, 0, 0])
        for at, more in enumerate((pulses, ticks, units)):
            group[at] += more


class Walk:
    """A meter that goes through the lines of a drive. What is refused changes nothing."""

    def __init__(self, tables, meter):
        self.tables, self.meter = tables, meter
        self.holidays = {line.parts["date"] for line in of_kind(tables.lines, "holiday")}
        self.most = {key: number_of(tables.lines, name) for key, name in (("P", "positions"), ("Z", "zones"))}
        self.supplements = {line.parts["number"]: line.parts for line in of_kind(tables.lines, "supplement")}
        self.far = [-(-meter.constant * cut // 10_000) for cut in tables.cuts["Distance"]]
        self.is_on, self.is_stopped, self.trip, self.saved = False, False, None, None
        self.clock = self.begun = 0  # the clock, and what it said when the interval began
        self.since = 0  # ticks since the clock was read
        self.place, self.latch, self.pulses = {"P": 1, "Z": 1}, None, 0
        self.closed = []

    def go(self, drive):
        """Goes through a drive; the trips that it closes."""
        for line in drive.decode("latin-1").split("\n"):
            line = line.removesuffix("\r")
            if line and not line.startswith("#"):
                self.take(*line.split(" "))
        return self.closed

    def take(self, word, *rest):
        if word == "U":
            self.power_up(int(rest[0]))
        elif not self.is_on:
            return
        elif word == "D":
            self.drop()
        elif word == "C":
            self.read_clock(int(rest[0]))
        elif word == "K":
            self.latch = self.latch or rest
        elif word == "P":
            self.pulses = min(FASTEST, self.pulses + int(rest[0]))
        elif word == "T":
            self.interval(0)
        else:
            self.intervals(min(FASTEST, int(rest[0])), int(rest[1]))

    def read_clock(self, second):
        if self.trip and second < self.clock:
            return
        self.clock, self.since = second, 0
        if self.trip:
            self.trip.clamp(second)

    def now(self):
        return self.clock + self.since // SECOND

    def power_up(self, second):
        if self.is_on:
            return
        self.is_on, self.latch, self.pulses = True, None, 0
        if self.trip and self.saved <= second <= self.saved + self.meter.hold:
            self.trip.tell(self.now(), "lost", second)
        else:
            if self.trip:
                self.close("ABORTED", self.saved, "aborted", second)
            self.place, self.is_stopped = {"P": 1, "Z": 1}, False
        self.read_clock(second)
        self.begun = second

    def drop(self):
        self.is_on, self.saved = False, self.clock
        if self.trip:
            self.trip.pulses += self.pulses
            self.trip.dropped += self.pulses

    def close(self, kind, second, what, about=None):
        trip, self.trip = self.trip, None
        trip.kind, trip.finish, trip.position = kind, second, self.place["P"]
        trip.clamp(second)
        trip.tell(second, what, about)
        self.closed.append(trip)
        self.is_stopped = False

    def intervals(self, pulses, count):
        """Equal intervals, as many at once as have one context and no key behind them."""
        while count:
            is_one = self.pulses or self.latch or self.begun != self.clock
            few = 1 if is_one else min(count, self.alike(pulses))
            if is_one:
                self.interval(pulses)
            else:
                self.pass_by(pulses, few)
            count -= few

    def alike(self, pulses):
        """So many intervals with these pulses from here on have one context; the trip's longest time ends them too."""
        if not self.trip:
            return LONGEST
        ahead = [LONGEST - self.trip.ticks]
        ahead += [cut - self.trip.ticks for cut in self.tables.cuts["Time"] if cut > self.trip.ticks]
        ahead += [-(-(far - self.trip.pulses) // pulses) for far in self.far if pulses and far > self.trip.pulses]
        return min(ahead)

    def interval(self, pulses):
        """One interval with the pulses that are there already, and the key behind it."""
        self.pass_by(min(FASTEST, self.pulses + pulses), 1)
        self.pulses, key = 0, self.latch
        self.latch = None
        if key:
            self.act(*key)
        self.begun = self.clock

    def pass_by(self, pulses, count):
        """Intervals of one context pass."""
        trip = self.trip
        if not trip:
            return
        if self.is_stopped:
            trip.stopped[0] += pulses * count
            trip.stopped[1] += count
        else:
            self.charge(trip, pulses, count)
        trip.pulses += pulses * count
        trip.ticks += count
        self.since += count
        if trip.ticks >= LONGEST:
            self.close("EXPIRED", self.clock, "expired")
            self.latch = None

    def charge(self, trip, pulses, count):
        line = self.lines_at(self.begun, trip.pulses, trip.ticks)["rate"]
        if line is not trip.rate:
            trip.tell(self.now(), "rate", line)
            trip.rate = line
        weight, tick = self.tables.rates[self.tables.by_kind["rate"].index(line)]
        by_distance, by_time = pulses * weight, tick
        if self.meter.mode == "double":
            way, units = "BOTH", by_distance + by_time
        else:
            way, units = ("DISTANCE", by_distance) if by_distance >= by_time else ("TIME", by_time)
        trip.add(line, way, pulses * count, count, units * count)

    def lines_at(self, second, pulses, ticks):
        """The lines that hold at a second, as far as the trip is."""
        at = datetime.datetime.fromtimestamp(second + self.meter.offset_at(second), datetime.timezone.utc)
        is_holiday = (at.year, at.month, at.day) in self.holidays
        context = self.place["P"], self.place["Z"], at.isoweekday(), is_holiday, (at.month, at.day), 60 * at.hour + at.minute
        return self.tables.lines_at((*context, 10_000 * pulses // self.meter.constant, ticks))

    def act(self, key, number="0"):
        """What a key does at the end of an interval."""
        number, trip = int(number), self.trip
        if key == "H" and not trip:
            self.trip, self.since = Trip(self.clock, self.lines_at(self.clock, 0, 0), dict(self.place)), 0
        elif key in "HS" and trip and self.is_stopped == (key == "H"):
            self.is_stopped = key == "S"
            trip.tell(self.now(), "stopped" if self.is_stopped else "goes on")
        elif key == "C" and trip and self.is_stopped:
            self.close("CLOSED", self.clock, "cleared")
        elif key in self.most and not self.is_stopped and 1 <= number <= self.most[key]:
            if trip and self.place[key] != number:
                trip.tell(self.now(), {"P": "position", "Z": "zone"}[key], number)
            self.place[key] = number
        elif key == "E" and trip and trip.supplements[number] < self.supplements.get(number, {"most": 0})["most"]:
            trip.supplements[number] += 1
            trip.tell(self.now(), "supplement", number)
