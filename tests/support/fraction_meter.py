"""The reference meter of the tests: docs/METER.md event by event, over the charges of fraction_rates.py. Each rule is a
small method, so that a wrong meter is this one with a method changed; `notes` is for what such a meter remembers."""

import collections
import re
from fractions import Fraction
from math import ceil, floor
from typing import NamedTuple

from heglorwy.tables import money
from support.fraction_rates import Rates

FASTEST, LONGEST, LARGEST = 2000, 8_640_000, 99_999_999  # pulses of an interval, ticks of a trip, units of a fare
KEYS = {"H": "hire", "S": "stop", "C": "clear", "P": "set_position", "Z": "set_zone", "E": "add"}


class Closed(NamedTuple):
    """What is read of a hiring at its end: money in its smallest units, millimetres and ticks. Position and zone are
    those that were shown last; `refused` counts the events that were refused since the hiring before it."""

    kind: str
    fare: int
    distance: int
    time: int
    supplements: int
    position: int
    zone: int
    refused: int


class Trip:
    """A hiring under way."""

    def __init__(self, second, fee, least):
        self.start, self.fee, self.covers, self.least = second, fee.parts["amount"], fee.parts["covers"], 0
        if least:
            self.least = least.parts["amount"]
        self.pulses = self.ticks = 0
        self.charged, self.added, self.notes = Fraction(0), collections.Counter(), {}


class FractionMeter(Rates):
    """The meter, Off; `drive` carries lines out."""

    def __init__(self, tariff, constant=10_000, mode="single", hold=0, offsets=((0, 0),)):
        super().__init__(tariff, constant, mode, offsets)
        self.hold, self.clock, self.begun = hold, 0, 0  # `begun` is what the clock said when the interval began
        self.is_on, self.is_stopped, self.trip, self.saved, self.latch, self.waiting = False, False, None, 0, None, 0
        self.refused, self.closed, self.notes = 0, [], {}
        self.charged_by = []  # of the last trip: a rate's line, the clock when it began to charge, its intervals

    # Intervals.

    def alike(self, pulses):
        """How many intervals with so many pulses from here on have one context, and end no trip."""
        if not self.trip:
            return LONGEST
        ahead = [LONGEST - self.trip.ticks]
        for kind, bound in self.bounds:
            left, each = bound - self.trip.ticks, 1
            if kind == "distance":
                left, each = bound * self.constant - 10_000 * self.trip.pulses, 10_000 * pulses
            ahead += [-(-left // each)] if left > 0 and each else []
        return max(1, floor(min(ahead)))

    def intervals(self, pulses, count):
        while count:
            is_one = self.latch or self.waiting or self.begun != self.clock
            few = 1 if is_one else min(count, self.alike(self.heard(pulses)))
            self.interval(pulses, few)
            count -= few

    def interval(self, pulses, count=1):
        """Intervals of one context, with the pulses that wait already; then the key acts."""
        self.refused += (self.waiting + pulses > FASTEST) * count
        pulses, self.waiting = self.heard(min(FASTEST, self.waiting + pulses)), 0
        if self.trip:
            if self.is_charged():
                self.charge_intervals(pulses, count)
            self.count(pulses, count)
        key, self.latch = self.latch, None
        if self.trip and self.trip.ticks >= LONGEST:
            self.close("EXPIRED")
            self.refused += bool(key)
        elif key:
            self.press(*key)
        self.begun = self.clock

    def charge_intervals(self, pulses, count):
        trip = self.trip
        rate = self.rate(self.context(self.begun, trip.pulses, trip.ticks))
        trip.charged += self.charge(rate, pulses) * count
        if not self.charged_by or self.charged_by[-1][0] != rate.number:
            self.charged_by.append([rate.number, self.begun, 0])
        self.charged_by[-1][2] += count

    def count(self, pulses, count):
        """Distance and time of the trip."""
        self.trip.pulses += pulses * count
        self.trip.ticks += count * self.tick

    # Keys: each says whether it was taken.

    def press(self, key, number=0):
        name = KEYS[key]
        is_taken = getattr(self, name)(int(number)) if key in "PZE" else getattr(self, name)()
        self.refused += not is_taken

    def hire(self):
        return self.begin() if not self.trip else self.is_stopped and self.go_on()

    def begin(self):
        """A trip begins."""
        context = self.context(self.clock)
        self.trip = Trip(self.clock, self.fee(context), self.least(context))
        self.is_stopped, self.charged_by = False, []
        return True

    def fee(self, context):
        return self.line("initial", context)

    def least(self, context):
        return self.line("minimum", context)

    def go_on(self):
        self.is_stopped = False
        return True

    def stop(self):
        is_taken = bool(self.trip) and not self.is_stopped
        self.is_stopped |= is_taken
        return is_taken

    def clear(self):
        is_taken = bool(self.trip) and self.is_stopped
        if is_taken:
            self.close("CLOSED")
        return is_taken

    def set_position(self, number):
        is_taken = not (self.trip and self.is_stopped) and 1 <= number <= self.most["positions"]
        self.position = number if is_taken else self.position
        return is_taken

    def set_zone(self, number):
        is_taken = not (self.trip and self.is_stopped) and 1 <= number <= self.most["zones"]
        self.zone = number if is_taken else self.zone
        return is_taken

    def add(self, number):
        most = self.supplements[number]["most"] if number in self.supplements else 0
        is_taken = bool(self.trip) and self.trip.added[number] < most
        if is_taken:
            self.trip.added[number] += 1
        return is_taken

    # What is shown, and the end of a trip.

    def steps(self, trip):
        """The display steps above the hire fee."""
        above = max(Fraction(0), trip.charged - trip.covers) / self.step["amount"]
        return ceil(above) if self.step["rounding"] == "ahead" else floor(above)

    def fare_of(self, trip):
        return min(LARGEST, max(trip.fee + self.steps(trip) * self.step["amount"], trip.least))

    def extras_of(self, trip):
        return sum(self.supplements[number]["amount"] * count for number, count in trip.added.items())

    def distance_of(self, trip):
        return floor(1_000_000 * trip.pulses / Fraction(self.constant))

    def time_of(self, trip):
        return floor(trip.ticks)

    def reading(self, kind, trip):
        amounts = self.fare_of(trip), self.distance_of(trip), self.time_of(trip), self.extras_of(trip)
        return Closed(kind, *amounts, self.position, self.zone, self.refused)

    def close(self, kind):
        trip, self.trip = self.trip, None
        self.closed.append(self.reading(kind, trip))
        self.is_stopped, self.refused = False, 0

    def fare(self):
        """The fare that is shown, as money."""
        return money(self.fare_of(self.trip), self.decimals)

    # The supply and the clock.

    def drop(self):
        self.is_on, self.saved, self.latch = False, self.clock, None
        if self.trip:
            self.count(self.heard(self.waiting), 1)
            self.trip.ticks -= self.tick
        self.waiting = 0

    def power_up(self, second):
        self.is_on = True
        if self.trip and self.is_held(second):
            self.resume()
        else:
            if self.trip:
                self.close("ABORTED")
            self.position = self.zone = 1
        self.clock = self.begun = second

    def is_held(self, second):
        """Whether a trip goes on at this second."""
        return self.saved <= second <= self.saved + self.hold

    def resume(self):
        """What the supply brings back of a trip."""

    def read_clock(self, second):
        if self.trip and second < self.clock:
            self.refused += 1
        else:
            self.clock = second

    def take(self, word, *rest):
        """A line of a drive."""
        if word == "U" and not self.is_on:
            self.power_up(int(rest[0]))
        elif word == "U" or not self.is_on:
            self.refused += int(rest[1]) * (2 if rest[0] != "0" else 1) if word == "I" else 1
        elif word == "D":
            self.drop()
        elif word == "C":
            self.read_clock(int(rest[0]))
        elif word == "K":
            self.refused += bool(self.latch)
            self.latch = self.latch or rest
        elif word == "P":
            self.refused += self.waiting + int(rest[0]) > FASTEST
            self.waiting = min(FASTEST, self.waiting + int(rest[0]))
        else:
            self.intervals(*(map(int, rest) if word == "I" else (0, 1)))

    def drive(self, text):
        """Carries the lines of a drive out. What is refused behind the last hiring counts to it."""
        for line in text.decode("latin-1").splitlines():
            if line and not line.startswith("#"):
                self.take(*line.split(" "))
        return self

    def readings(self):
        """What was read of each hiring. What was refused behind the last one counts to it."""
        last = self.closed[-1:]
        return self.closed[:-1] + [one._replace(refused=one.refused + self.refused) for one in last]


def meter_of(tariff, params, kind=FractionMeter):
    """The meter of a tariff and of a text of parameters."""
    said = dict(re.findall(r"(?m)^(\w+) (\S+)$", params))
    offsets = [(int(second), int(offset)) for second, offset in re.findall(r"(?m)^offset (\d+) (-?\d+)$", params)]
    return kind(tariff, int(said["constant"]), said["mode"], int(said["hold"]), offsets)
