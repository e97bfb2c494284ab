"""Trips at even speeds, each stretch under one rate: their drives, and what they come to by the numbers of their rates,
figured with fractions. Nothing here is taken from the program. Charges are in the smallest units of money."""

import pathlib
from fractions import Fraction
from math import ceil, floor
from typing import NamedTuple

from heglorwy.drives import hired

TOP = pathlib.Path(__file__).resolve().parents[2]

NOON = 1772445600  # of a Monday
LARGEST = 99_999_999


class Rate(NamedTuple):
    """`a` for each `b` decimetres, and `c` for each `e` tenths of a second."""

    a: int
    b: int
    c: int
    e: int

    def pulse(self, constant):
        """What a pulse costs."""
        return Fraction(10_000 * self.a, constant * self.b)

    def tick(self):
        """What an interval costs."""
        return Fraction(self.c, self.e)


class Stretch(NamedTuple):
    rate: Rate
    pulses: int
    ticks: int

    def intervals(self):
        """How many intervals have n pulses, how many have n + 1, and n."""
        low, more = divmod(self.pulses, self.ticks)
        return self.ticks - more, more, low


class Fees(NamedTuple):
    """What makes a fare of a charge."""

    initial: int
    covers: int
    minimum: int
    step: int
    is_ahead: bool

    def fare(self, charge):
        """The fare that a charge comes to."""
        above = max(Fraction(0), charge - self.covers) / self.step
        full = ceil(above) if self.is_ahead else floor(above)
        return min(LARGEST, max(self.minimum, self.initial + self.step * full))


def exact_charge(stretch, constant):
    """The greater of what the distance and what the time of a stretch come to."""
    return max(stretch.pulses * stretch.rate.pulse(constant), stretch.ticks * stretch.rate.tick())


def most_above(stretch, constant):
    """How much more than that a stretch may be charged by the law: u * (w - u) / w for each interval, where a pulse
    weighs w, an interval t, and u is the remainder of t by w."""
    pulse, tick = stretch.rate.pulse(constant), stretch.rate.tick()
    over = tick % pulse if pulse else 0
    return stretch.ticks * over * (pulse - over) / pulse if pulse else Fraction(0)


def mode_s(pulses, pulse, tick):
    """The charge of an interval in mode S: by its time where its pulses cost less, and by its distance otherwise."""
    return tick if pulses * pulse < tick else pulses * pulse


def charge_by_interval(stretch, constant, rule=mode_s):
    """What a stretch is charged interval by interval."""
    fewer, more, low = stretch.intervals()
    costs = stretch.rate.pulse(constant), stretch.rate.tick()
    return fewer * rule(low, *costs) + more * rule(low + 1, *costs)


def drive_of(stretches, constant):
    """The drive of a trip over such stretches, which isn't stopped at its end."""
    drive = hired(NOON, constant)
    for stretch in stretches:
        drive.go(stretch.pulses, stretch.ticks)
    return drive


def pulses_of(drive):
    """The pulses of each interval behind the hiring."""
    begun = drive.lines.index("K H") + 2
    rows = [line.split(" ") for line in drive.lines[begun:] if line.startswith("I ")]
    return [int(pulses) for _, pulses, count in rows for _ in range(int(count))]
