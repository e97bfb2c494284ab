"""Rides: drives of several hirings for the meter, made of acts, each with what the driver does in words."""

import datetime
from typing import NamedTuple

from heglorwy.drives import FASTEST, SECOND

MINUTE, READ = 60 * SECOND, 10 * SECOND  # ticks; the clock is read so often
MOST_INTERVALS = 36_000  # of a line of a drive
COARSE = 2  # pulses of an interval, below which even speeds have intervals with more and with less
KEYS = {"H": "Hire", "S": "Stop", "C": "Clear", "P": "position", "Z": "zone", "E": "supplement"}


class Act(NamedTuple):
    """One thing that a driver does: `at` a second, for hire; a `key`; `go` at so many km/h for so many ticks; `lose`
    the supply for so many seconds."""

    what: str
    value: object
    ticks: int = 0


def at(second):
    return Act("at", second)


def key(*names):
    """Keys, each with an interval behind it."""
    return [Act("key", name) for name in names]


def go(kmh, seconds):
    return Act("go", kmh, round(SECOND * seconds))


def far(kmh, metres):
    """So many metres at a speed."""
    return Act("go", kmh, max(1, round(36 * metres / kmh)))


def stand(seconds):
    return go(0, seconds)


def lose(seconds):
    return Act("lose", seconds)


class Ride:
    """The lines of acts, as they are written. The clock is read each ten seconds, and when it is stopped. It may be
    wrong by a `shift`; a clock that `stands` isn't read within a hiring."""

    def __init__(self, meter, shift=0, stands=False):
        self.meter, self.shift, self.stands = meter, shift, stands
        self.lines, self.second, self.tick = [], 0, 0
        self.is_on = self.is_hired = False

    def now(self):
        return self.second + self.tick // SECOND + self.shift

    def read_clock(self):
        if not (self.stands and self.is_hired):
            self.lines.append(f"C {self.now()}")

    def intervals(self, pulses, count):
        """Equal intervals; the clock is read in the last one before each ten seconds are full."""
        while count:
            left = READ - (self.tick + SECOND * self.second) % READ
            some = min(count, left)
            if some == left:
                self.write(pulses, some - 1)
                self.tick += some
                self.read_clock()
                self.write(pulses, 1)
            else:
                self.write(pulses, some)
                self.tick += some
            count -= some

    def write(self, pulses, count):
        for done in range(0, count, MOST_INTERVALS):
            self.lines.append(f"I {pulses} {min(MOST_INTERVALS, count - done)}")

    def at(self, second, _):
        """A moment for hire: the meter is powered, or its clock is set."""
        self.second, self.tick = second, 0
        self.lines.append(f"{'C' if self.is_on else 'U'} {self.now()}")
        self.is_on = True

    def key(self, name, _):
        if name == "S":
            self.read_clock()
        self.lines.append(f"K {name}")
        self.intervals(0, 1)
        self.is_hired = name != "C" and (self.is_hired or name == "H")

    def go(self, kmh, ticks):
        pulses = kmh * self.meter.constant / 36_000
        if pulses >= COARSE or not pulses:
            self.intervals(min(FASTEST, round(pulses)), ticks)
            return
        done, run = 0, [0, 0]
        for number in range(1, ticks + 1):
            each = int(pulses * number) - done
            done += each
            if each != run[0]:
                self.intervals(*run)
                run = [each, 0]
            run[1] += 1
        self.intervals(*run)

    def lose(self, seconds, _):
        """The supply is lost; time goes on."""
        stood, self.stands = self.stands, False
        self.read_clock()
        self.tick += SECOND * seconds
        self.lines += ["D", f"U {self.now()}"]
        self.stands = stood

    def carry(self, acts):
        for act in acts:
            getattr(self, act.what)(act.value, act.ticks)
        return self


def text_of(meter, acts, **how):
    """The lines of acts as a drive."""
    return "".join(f"{line}\n" for line in Ride(meter, **how).carry(acts).lines).encode()


def ticks_of(acts):
    """How long acts take, but for the time without supply and between hirings."""
    return sum(act.ticks + (act.what == "key") for act in acts)


def moment(meter, second):
    begin = datetime.datetime(1970, 1, 1) + datetime.timedelta(seconds=second + meter.offset_at(second))
    return f"{begin:%a} {begin}".lower()


def words_of(meter, act):
    """An act in words."""
    if act.what == "at":
        return moment(meter, act.value)
    if act.what == "lose":
        return f"{act.value} s without supply"
    if act.what == "go":
        seconds = f"{act.ticks // SECOND}.{act.ticks % SECOND} s"
        way = f"drive {act.value * act.ticks / 36:.0f} m at {act.value:.0f} km/h for"
        return f"{way if act.value else 'stand'} {seconds}"
    name, _, number = act.value.partition(" ")
    return f"{KEYS[name]} {number}".strip()
