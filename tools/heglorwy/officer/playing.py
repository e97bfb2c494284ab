"""Plays the drives of a kit to a meter: each line when it is due, or as fast as it is taken."""

import sys
import time

from heglorwy.drives import SECOND
from heglorwy.officer.judging import drives_of
from heglorwy.officer.kit_folder import lines_of

TICK = 1 / SECOND  # seconds


class Player:
    """Writes lines to an output. In time, an interval is written as it ends, and the supply comes back when it
    should."""

    def __init__(self, out, in_time, clock=time.monotonic, wait=time.sleep):
        self.out, self.in_time, self.clock, self.wait = out, in_time, clock, wait
        self.due, self.last, self.lost = clock(), 0, None

    def write(self, line):
        self.out.write(f"{line}\n".encode())
        self.out.flush()

    def wait_for(self, seconds):
        """Waits until so much later than before. What was late isn't waited for again."""
        self.due += seconds
        if self.in_time and (left := self.due - self.clock()) > 0:
            self.wait(left)

    def line(self, word, *rest):
        """A line of a drive. Intervals are parted, so that each is written when it ends."""
        if word == "D":
            self.lost = self.last
        elif word == "U" and self.lost is not None:
            self.wait_for(max(0, int(rest[0]) - self.lost))
            self.lost = None
        if word in "UC":
            self.last = int(rest[0])
        if word != "I" or not self.in_time:
            self.write(" ".join([word, *rest]))
            return
        for _ in range(int(rest[1])):
            self.wait_for(TICK)
            self.write(f"I {rest[0]} 1")

    def drive(self, text):
        """A drive; behind it the supply drops, so that the next one finds the meter as it was powered."""
        self.last, self.lost = 0, None
        for words in lines_of(text):
            self.line(*words)
        self.write("D")


def play(asked):
    """Plays a drive, or the drives of a folder in the order of their names."""
    player = Player(sys.stdout.buffer, not asked.at_once)
    for drive in drives_of(asked.drive):
        print(f"verify: {drive.name}", file=sys.stderr, flush=True)
        player.drive(drive.text)
    return "", 0
