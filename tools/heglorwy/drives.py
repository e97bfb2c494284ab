"""Drives that tools make, by docs/FORMATS.md, "Drives"."""

import datetime

from heglorwy.program import Refused

FASTEST = 2000  # pulses of an interval
SECOND = 10  # ticks
MARK = "K E 99"  # a supplement that no tariff has: it is refused, and shows where the displays before it end
MARKED = "REFUSED NO SUCH"


def second_of(date, minute):
    """The second of a minute of a date, where local time is UTC."""
    day = datetime.datetime.combine(date, datetime.time(), datetime.timezone.utc)
    return int(day.timestamp()) + 60 * minute


class Drive:
    """The lines of a drive whose clock is read at each second."""

    def __init__(self, second, constant):
        self.second, self.constant = second, constant
        self.ticks, self.pulses = 0, 0
        self.lines = [f"U {second}"]

    def key(self, name):
        """Presses a key, which acts at the end of the next interval."""
        self.lines.append(f"K {name}")

    def set_clock(self, second):
        """Reads the clock, which goes on from there."""
        self.lines.append(f"C {second}")
        self.second = second - self.ticks // SECOND

    def now(self):
        return self.second + self.ticks // SECOND

    def interval(self, pulses=0):
        self.intervals(pulses, 1)

    def intervals(self, pulses, count):
        """Equal intervals, which no reading of the clock parts."""
        if pulses > FASTEST:
            raise Refused(2, f"{pulses} pulses in 0.1 s are more than the {FASTEST} that a meter takes")
        self.lines.append(f"I {pulses} {count}")
        self.ticks += count
        self.pulses += pulses * count

    def go(self, pulses, ticks):
        """Drives so many pulses, evenly over a time."""
        done = 0
        while done < ticks:
            count = min(SECOND - self.ticks % SECOND, ticks - done)
            each, more = divmod(pulses * (done + count) // ticks - pulses * done // ticks, count)
            for number, per in ((more, each + 1), (count - more, each)):
                if number:
                    self.intervals(per, number)
            done += count
            if self.ticks % SECOND == 0:
                self.lines.append(f"C {self.now()}")

    def text(self):
        return "".join(f"{line}\n" for line in self.lines).encode()


def hired(second, constant, position=1, zone=1):
    """A drive that begins with a hiring."""
    drive = Drive(second, constant)
    for key, number in (("P", position), ("Z", zone)):
        if number != 1:
            drive.key(f"{key} {number}")
            drive.interval()
    drive.key("H")
    drive.interval()
    drive.ticks = drive.pulses = 0
    drive.set_clock(second)
    return drive
