"""A drive that is cut at a place: each line is one place, and a line `I p n` is n of them."""

import bisect
import itertools
import re

LINE = re.compile(rb"[^\n]*\n")
INTERVALS = re.compile(rb"I ([0-9]+) ([0-9]+)(\r?\n)")


def places_in(line):
    """How many places a line of a drive is."""
    intervals = INTERVALS.fullmatch(line)
    return int(intervals[2]) if intervals else 1


def parted(line, done):
    """A line `I p n` as two, of which the first has so many of its intervals."""
    pulses, count, end = INTERVALS.fullmatch(line).groups()
    return [b"I %s %d%s" % (pulses, number, end) for number in (done, int(count) - done)]


class Places:
    """The places of a drive that the program takes. Place 0 stands in front of its first line."""

    def __init__(self, drive):
        self.lines = LINE.findall(drive)
        self.ends = list(itertools.accumulate(map(places_in, self.lines)))
        self.last = self.ends[-1] if self.ends else 0

    def cut(self, place):
        """The drive up to a place, and what is left of it."""
        whole = bisect.bisect_right(self.ends, place)
        before, behind = self.lines[:whole], self.lines[whole:]
        done = place - (self.ends[whole - 1] if whole else 0)
        if done:
            first, second = parted(behind[0], done)
            before, behind = [*before, first], [second, *behind[1:]]
        return b"".join(before), b"".join(behind)
