"""Kills a program at random times, each time over what the kills before it left: for tests/crash/kill."""

import pathlib
import random
import subprocess
import time

from each_call import CITY, PARAMS
from filings import left_by, roll_of
from support.built import Amiss, expect
from support.drives import LATER, drive_of, text_of
from support.roll import receipts_in, units


class Killed:
    """A program that is killed a number of times; `killed` and `ended` count how often it was, and how often it ended before."""

    def __init__(self, program, within, seed):
        self.program, self.folder, self.dice, self.times = program, pathlib.Path(within), random.Random(seed), random.Random()
        self.killed = self.ended = 0

    def call(self, *words, folder=None):
        done = subprocess.run([self.program, *words], cwd=folder or self.folder, capture_output=True, check=False)
        expect(done.returncode == 0, f"{words[0]} ends with {done.returncode}: {done.stdout!r}")
        return done.stdout

    def break_off(self, words, least, most):
        """Calls it, and kills it after some seconds between these; gives what it printed, and whether it was killed."""
        with open(self.folder / "printed", "wb") as printed:
            began = subprocess.Popen([self.program, *words], cwd=self.folder, stdout=printed)
        time.sleep(self.times.uniform(least, most))
        began.kill()
        status = began.wait()
        expect(status in (0, -9), f"{words[0]} ends with {status}")
        self.killed, self.ended = self.killed + (status != 0), self.ended + (status == 0)
        return (self.folder / "printed").read_bytes(), status != 0

    def each(self, kills):
        for turn in range(1, kills + 1):
            try:
                self.turn()
            except Amiss as off:
                raise Amiss(f"turn {turn}: {off}") from None
        expect(self.killed > 0 or kills == 0, f"of {kills} none was killed, so nothing was tried")


class Days(Killed):
    """Runs over the drives of a day. The number is at least that of each receipt of which a byte was printed, and none is
    printed twice; hirings and fare have grown by those of the whole receipts that were printed, and by at most one more, whose
    text was cut: it is the next one that the same run prints where it isn't killed."""

    def __init__(self, program, within, seed):
        super().__init__(program, within, seed)
        self.whole, self.second, self.seen, self.cut, self.begun = self.folder / "whole", 1_772_434_800, set(), 0, 0
        self.whole.mkdir()
        self.call("seal", CITY, PARAMS)
        began = time.monotonic()
        self.run_whole()
        self.long = time.monotonic() - began

    def run_whole(self):
        """A new drive, and what its run prints where it isn't killed."""
        (self.folder / "drive").write_text(text_of(drive_of(self.dice.randrange(2**32), 6, self.second)))
        self.second += LATER
        (self.whole / "taxi.store").write_bytes((self.folder / "taxi.store").read_bytes())
        return self.call("run", CITY, "../drive", folder=self.whole)

    def totals(self):
        rows = dict(line.split(" ", 1) for line in self.call("totals").decode().splitlines() if " " in line)
        return int(rows["NUMBER"]), int(rows["HIRINGS"]), units(rows["FARE"])

    def turn(self):
        whole, (_, hirings, fare) = self.run_whole(), self.totals()
        printed, _ = self.break_off(["run", CITY, "drive"], 0, 1.25 * self.long)
        expect(whole.startswith(printed), "other texts are printed")
        number, *now = self.totals()
        begun = [int(line.split()[1]) for line in printed.decode().splitlines(keepends=True)
                 if line.startswith("RECEIPT ") and line.endswith("\n")]
        expect(max(begun, default=0) <= number, f"receipt {begun} was printed, and the store has number {number}")
        expect(self.seen.isdisjoint(begun), f"one of the receipts {begun} was printed twice")
        self.seen.update(begun)
        entered = [one.fields for one in receipts_in(whole) if one.fields["receipt"] <= number]
        expect(now == [hirings + len(entered), fare + sum(units(one["fare"]) for one in entered)],
               f"number {number}, and hirings and fare aren't those of its receipts")
        told = list(receipts_in(printed))
        expect(len(entered) - len(told) in (0, 1), f"{len(entered) - len(told)} receipts are missing")
        expect(len(begun) == len(told) or len(entered) > len(told), "a receipt had begun, and has no entry")
        self.cut, self.begun = self.cut + len(entered) - len(told), self.begun + len(begun) - len(told)

    def tell(self):
        return (f"{self.killed} runs were killed and {self.ended} ended before: {len(self.seen)} receipts begun or whole, {self.cut} "
                f"entries without a whole receipt, each after its own kill, {self.begun} of them with one that had begun")


class Rolls(Killed):
    """Filings of rolls: receipts that are filed already, new ones with gaps in their numbers, displays, and torn ones. `show`
    prints the last 256, or the last 255, of the receipts found before and the first some of the new ones; where a filing ended
    it has said how many it appended, and all of them stand there."""

    def __init__(self, program, within, seed):
        super().__init__(program, within, seed)
        self.found, self.tally, self.lacking = [], {"none": 0, "some": 0, "all": 0}, 0
        self.file_whole(list(range(2, 242)))
        self.least = min(self.file_whole([]) for _ in range(5))
        self.most = self.file_whole(list(range(242, 247)))
        self.last = self.found[-1]

    def put_roll(self, new):
        (self.folder / "roll").write_bytes(roll_of(self.dice, self.found[-3:], new))

    def file_whole(self, new):
        """Files these receipts, and gives how long it took."""
        self.put_roll(new)
        began = time.monotonic()
        said = self.call("file", "roll")
        expect(said == b"FILED %d\n" % len(new), f"a filing of {len(new)} said {said!r}")
        self.found += new
        return time.monotonic() - began

    def turn(self):
        new = []
        for _ in range(1 + self.dice.randrange(6)):
            self.last += 1 + self.dice.randrange(3)
            new.append(self.last)
        self.put_roll(new)
        said, was_killed = self.break_off(["file", "roll"], 0.5 * self.least, 1.2 * self.most)
        left = left_by(self.call("show"), self.found, new)
        expect(left is not None, f"over {self.found[-3:]} and for {new} another list is left")
        # What the kill kept from being filed is no more on the next roll: its number is missing.
        self.found, count, lacks = left
        expect((b"FILED %d\n" % len(new)).startswith(said), f"a filing of {len(new)} said {said!r}")
        if not was_killed:
            expect(said != b"" and count == len(new) and not lacks, f"a filing of {len(new)} ended, and {count} stand there")
            return
        self.tally["none" if count == 0 else "all" if count == len(new) else "some"] += 1
        self.lacking += lacks

    def tell(self):
        return (f"{self.killed} filings were killed and {self.ended} ended before; {self.tally['none']} left none of the new receipts, "
                f"{self.tally['some']} some and {self.tally['all']} all of them; {self.lacking} lists lacked their oldest")
