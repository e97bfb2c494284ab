"""What a rate charges and when, for the reference meter of the tests: docs/TARIFF.md and docs/METER.md rule by rule,
with fractions, and without tables, cuts or weights. With the tools it shares the lines that they read of a printed
form."""

import datetime
from fractions import Fraction
from typing import NamedTuple

CONDITIONAL = ("rate", "initial", "minimum")


class Context(NamedTuple):
    """What a condition is asked of."""

    position: int
    zone: int
    weekday: int
    is_holiday: bool
    date: tuple  # month and day
    minute: int
    pulses: int
    ticks: int


def within(value, first, last):
    return first <= value <= last if first <= last else value >= first or value <= last


def bounds_of(lines):
    """The bounds of distance and duration in the conditions of lines."""
    left = [line.when for line in lines if line.when]
    while left:
        kind, *inner = left.pop()
        if kind in ("and", "or", "not"):
            left += inner
        elif kind in ("distance", "time of trip"):
            yield kind, inner[0]


class Rates:
    """A tariff under parameters. Each rule is a small method, so that a wrong meter is the right one with a method
    changed."""

    tick = 1  # what a tick counts

    def __init__(self, tariff, constant, mode, offsets):
        self.constant, self.mode, self.offsets, self.decimals = constant, mode, offsets, tariff.decimals
        kinds = {line.kind for line in tariff.lines}
        of = {kind: [line for line in tariff.lines if line.kind == kind] for kind in kinds}
        self.lines = {kind: of.get(kind, []) for kind in CONDITIONAL}
        self.step = of["step"][0].parts
        self.most = {kind: of[kind][0].parts["number"] if kind in of else 1 for kind in ("positions", "zones")}
        self.supplements = {line.parts["number"]: line.parts for line in of.get("supplement", [])}
        self.holidays = {line.parts["date"] for line in of.get("holiday", [])}
        self.bounds = list(bounds_of(self.lines["rate"]))  # of distance and duration
        self.position = self.zone = 1
        self.known = None, None  # a second and its local time

    def offset(self, second):
        return [offset for begins, offset in self.offsets if begins <= second][-1]

    def local(self, second):
        if self.known[0] != second:
            at = datetime.datetime.fromtimestamp(second + self.offset(second), datetime.timezone.utc)
            self.known = second, at
        return self.known[1]

    def weekday(self, at):
        return at.isoweekday()

    def is_holiday(self, at):
        return (at.year, at.month, at.day) in self.holidays

    def minute(self, at):
        return 60 * at.hour + at.minute

    def place(self):
        return self.position, self.zone

    def context(self, second, pulses=0, ticks=0):
        at = self.local(second)
        day = self.weekday(at), self.is_holiday(at), (at.month, at.day)
        return Context(*self.place(), *day, self.minute(at), pulses, ticks)

    def holds(self, when, context):
        """Whether a condition holds in a context."""
        kind, *inner = when
        if kind == "not":
            return not self.holds(inner[0], context)
        if kind in ("and", "or"):
            return (all if kind == "and" else any)(self.holds(part, context) for part in inner)
        if kind == "minute":
            first, last = inner
            return first != last and within(context.minute, first, (last - 1) % 1440)
        return {
            "position": lambda: context.position == inner[0], "zone": lambda: context.zone == inner[0],
            "day": lambda: within(context.weekday, *inner), "date": lambda: within(context.date, *inner),
            "holiday": lambda: context.is_holiday, "time of trip": lambda: context.ticks >= inner[0],
            "distance": lambda: 10_000 * context.pulses >= inner[0] * self.constant,
        }[kind]()

    def line(self, kind, context):
        """The first line of a kind whose condition holds; None where none does."""
        return next((line for line in self.lines[kind] if line.when is None or self.holds(line.when, context)), None)

    def rate(self, context):
        return self.line("rate", context)

    def by_distance(self, rate, pulses):
        return Fraction(10_000 * pulses * rate.parts["a"], self.constant * rate.parts["b"])

    def by_time(self, rate):
        return Fraction(rate.parts["c"], rate.parts["e"]) * self.tick

    def charge(self, rate, pulses):
        """What an interval with so many pulses is charged under a rate."""
        both = self.by_distance(rate, pulses), self.by_time(rate)
        return max(both) if self.mode == "single" else sum(both)

    def is_charged(self):
        return not self.is_stopped

    def heard(self, pulses):
        """The pulses that the meter takes an interval's for."""
        return pulses
