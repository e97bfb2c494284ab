"""Hirings of a kit, and the lines of a drive that they are."""

import datetime
from typing import NamedTuple

from heglorwy.drives import SECOND
from heglorwy.meter import FIRST

MINUTE = 60 * SECOND  # ticks
LATE = 20  # seconds within the minute at which a clock is set
LONGEST_TRIP = 8_640_000  # ticks, with which a trip expires
MOST_INTERVALS = 36_000  # of a line of a drive


class Context(NamedTuple):
    """Where two tariffs differ first, as `compare` says it."""

    kind: str
    position: int
    zone: int
    date: datetime.date
    minute: int
    ticks: int = 0
    pulses: int = 0


class Leg(NamedTuple):
    """Equal intervals of a hiring, behind a switch of position and zone where there is one."""

    pulses: int
    count: int
    place: tuple | None = None


class Hiring(NamedTuple):
    """A hiring. The clock begins `second` at the tick `at` of the trip."""

    position: int
    zone: int
    second: int
    at: int = 0
    legs: tuple = ()
    before: tuple = ()  # keys that are pressed before the hiring, besides position and zone
    extras: tuple = ()  # supplements, which are added when it is stopped
    lost: int | None = None  # the seconds without supply behind the first leg
    shift: int = 0  # by how many seconds the clock is wrong

    @property
    def start(self):
        return self.second - -(-self.at // SECOND) + self.shift

    @property
    def driven(self):
        return sum(leg.count + switches(leg) for leg in self.legs)

    @property
    def ticks(self):
        """The intervals of the trip: each supplement takes one, and so do the keys Stop and Clear."""
        return self.driven + len(self.extras) + 2

    @property
    def pulses(self):
        return sum(leg.pulses * (leg.count + switches(leg)) for leg in self.legs)

    def on(self, *legs):
        """The same hiring, driven on."""
        return self._replace(legs=self.legs + tuple(leg for leg in legs if leg.count))


def switches(leg):
    """The intervals that a switch of position and zone takes before a leg."""
    return 2 if leg.place else 0


class Writing:
    """The lines of a hiring as they are written: its clock goes on at each whole minute, and is read at its end."""

    def __init__(self, hiring):
        self.hiring, self.lines, self.tick, self.lost = hiring, [], 0, 0

    def clock(self, tick):
        hiring = self.hiring
        return max(FIRST, hiring.second + (tick - hiring.at) // SECOND + hiring.shift + self.lost)

    def intervals(self, pulses, count):
        for done in range(0, count, MOST_INTERVALS):
            self.lines.append(f"I {pulses} {min(MOST_INTERVALS, count - done)}")

    def read_clock(self, pulses):
        """An interval in which the clock is read: it then has the second at which the interval ends."""
        self.lines.append(f"C {self.clock(self.tick + 1)}")
        self.intervals(pulses, 1)
        self.tick += 1

    def drive(self, pulses, count):
        """Equal intervals; the clock is read in the last one before each whole minute."""
        while count:
            gone = (self.tick - self.hiring.at + SECOND * (self.hiring.second % 60)) % MINUTE
            some = min(count, MINUTE - gone)
            self.intervals(pulses, some - 1)
            if gone + some == MINUTE:
                self.tick += some - 1
                self.read_clock(pulses)
            else:
                self.intervals(pulses, 1)
                self.tick += some
            count -= some

    def leg(self, leg):
        for key, number in zip("PZ", leg.place or ()):
            self.lines.append(f"K {key} {number}")
            self.drive(leg.pulses, 1)
        self.drive(leg.pulses, leg.count)

    def lose_supply(self):
        self.lines += [f"C {self.clock(self.tick)}", "D"]
        self.lost = self.hiring.lost
        self.lines.append(f"U {self.clock(self.tick)}")

    def keys(self, *names):
        for name in names:
            self.lines += [f"K {name}", "I 0 1"]


def lines_of(hiring, always_placed=True):
    """The lines of a hiring, behind the coming of the supply; position and zone are set where they may be others."""
    writing = Writing(hiring)
    writing.lines.append(f"C {max(FIRST, hiring.start)}")
    placed = [f"{key} {number}" for key, number in zip("PZ", hiring[:2]) if always_placed or number != 1]
    writing.keys(*placed, *hiring.before)
    writing.lines.append(f"C {writing.clock(0)}")
    writing.keys("H")
    for number, leg in enumerate(hiring.legs):
        writing.leg(leg)
        if number == 0 and hiring.lost is not None:
            writing.lose_supply()
    writing.lines.append("K S")
    writing.read_clock(0)
    writing.keys(*(f"E {number}" for number in hiring.extras))
    writing.keys("C")
    return writing.lines


def drive_of(hirings):
    """One drive of several hirings; between them, for hire, the clock may go back."""
    lines = [f"U {max(FIRST, hirings[0].start)}"]
    for hiring in hirings:
        lines += lines_of(hiring)
    return "".join(f"{line}\n" for line in lines).encode()


def drive_file(hiring, comments):
    """The drive of one hiring, as it is written into a file."""
    lines = [*(f"# {comment}" for comment in comments), f"U {max(FIRST, hiring.start)}"]
    return "".join(f"{line}\n" for line in lines + lines_of(hiring, always_placed=False)).encode()
