"""Rolls of receipts for the hiring log, and what a filing that is broken off may leave of them: for tests/crash/kill."""

import pathlib

from each_call import Subject

DISPLAYS = b"FOR HIRE T1 Z1\nHIRED T1 Z1 3.80 +0.00\nSTOPPED T1 Z1 3.80 +0.00\n"
MOST = 256


def receipt(number):
    """The receipt of a number, whose distance and times differ from those of the others."""
    seconds = number % 60
    return (
        f"RECEIPT {number}\nKIND CLOSED\nTAXI LX-4711\nCONSTANT 10000\nSECURED 2025-12-01\n"
        "TARIFF 2645762409b70e5ab72a0a803b7d1a341373264e56971a8f44cb1969489d5f9b\n"
        f"START 2026-01-01 01:00:{seconds:02}\nFINISH 2026-01-01 01:10:{seconds:02}\nPOSITION 1\n"
        f"DISTANCE {number}.000 m\nCALC 3.80 + 0 x 0.20\nFARE 3.80\nSUPPLEMENTS 0.00\nTOTAL 3.80\nEND\n"
    ).encode()


def roll_of(dice, old, new):
    """The printed output of some runs, with receipts of these numbers; some are torn, as by a cut, and printed by none."""
    roll = b""
    for number in old + new:
        roll += DISPLAYS[:dice.randrange(len(DISPLAYS) + 1)]
        if dice.randrange(4) == 0:
            torn = receipt(number)
            roll += torn[:dice.randrange(len(torn))]
        roll += receipt(number)
    return roll + DISPLAYS


def left_by(text, found, new):
    """Which of the lists that a cut may leave was printed: its numbers, how many of the new ones are filed in it, and whether it
    lacks its oldest."""
    for count in range(len(new) + 1):
        whole = found + new[:count]
        for most in (MOST, MOST - 1)[: 1 + (len(whole) >= MOST)]:
            if text == b"".join(map(receipt, whole[-most:])):
                return whole[-most:], count, most < MOST
    return None


class Filing(Subject):
    """A filing of two receipts in an empty folder, or beside those of a log."""

    def __init__(self, trial, program, dice, found):
        super().__init__(trial, f"a filing over {len(found)} receipts", program, ["file", "roll"])
        self.old, self.new = found, [len(found) + 2, len(found) + 3]
        self.rolls = [roll_of(dice, [], found), roll_of(dice, found[-3:], self.new)]

    def fresh(self):
        super().fresh()
        for roll in self.rolls[0 if self.old else 1 :]:
            if roll is self.rolls[1] and self.old and self.call(*self.words)[1]:
                raise SystemExit("kill: a filing failed")
            pathlib.Path(self.folder, "roll").write_bytes(roll)

    def whole(self):
        return f"FILED {len(self.new)}"

    def may_begin(self):
        return True

    def look(self, what):
        """The log has the receipts before and the first some of the new ones, all of them where that was told, and the next
        filing files the rest."""
        expect, (printed, status) = self.trial.expect, self.call("show")
        left = left_by(printed.encode() + b"\n" * bool(printed), self.old, self.new) if status == 0 else None
        expect(left is not None, f"{what}: show ends with {status}, and another list is left")
        if left is None:
            return
        self.count(f"{left[1]} new ones")
        expect(self.told != self.whole() or left[1] == len(self.new), f"{what}: a receipt that was told is lost")
        said, status = self.call(*self.words)
        expect((said, status) == (f"FILED {len(self.new) - left[1]}", 0), f"{what}: the next filing says {said}")
