"""Lets wrong meters drive a kit, and counts what is found of them."""

import collections
import datetime
import pathlib
import re
import subprocess
import time

from judge import NOTHING, NOT_PERMITTED, REFUSAL, WITHIN
from mutants import LARGE, mutants, wrong_params
from reasons import Driver, reason_of

TOP = pathlib.Path(__file__).resolve().parents[3]

FASTEST, LONGEST = 100, 120  # km/h, minutes
MISSED, SAME, UNSOUND = "MISSED", "same", "unsound"
# Right meters that are a little beside, as changes of the lines of a drive.
BESIDE = {
    "clock 1 s fast": lambda text: clocks(text, 1), "clock 1 s slow": lambda text: clocks(text, -1),
    "a pulse more": lambda text: text.replace("K H\nI 0 1\n", "K H\nI 0 1\nP 1\n"),
    "stopped 0.1 s later": lambda text: text.replace("K S\n", "I 0 1\nK S\n"),
}


def clocks(text, by):
    return re.sub(r"^([CU]) (\d+)", lambda found: f"{found[1]} {int(found[2]) + by}", text, flags=re.MULTILINE)


def made(tariff, params, folder, words):
    """Makes the kit, and gives how long that took."""
    began = time.monotonic()
    constant = re.search(r"^constant (\d+)", params, re.MULTILINE)[1]
    (folder / "taxi.params").write_text(params)
    words = ["drives", tariff, constant, folder / "kit", "--params", folder / "taxi.params", "--seed", "1", *words]
    subprocess.run([TOP / "tools/verify", *words], stdout=subprocess.DEVNULL, check=True)
    return time.monotonic() - began


class Counts:
    """What was found of the wrong meters of a tariff."""

    def __init__(self, tariff):
        self.tariff, self.found, self.rows = tariff, collections.Counter(), []

    def add(self, verdict, size, name):
        self.found[verdict] += 1
        self.rows.append((verdict, size, name))

    @property
    def meters(self):
        return sum(number for verdict, number in self.found.items() if verdict not in (SAME, UNSOUND))

    @property
    def left_out(self):
        return self.meters - sum(self.found[verdict] for verdict in (NOT_PERMITTED, WITHIN, REFUSAL, MISSED))


def tried(meters, taxi, driver, with_days, counts, every=1):
    """Lets the wrong meters drive, each of so many one."""
    for size, name, text in list(mutants(meters.form, with_days))[::every]:
        verdict = meters.judged(text)
        if verdict is None:
            verdict = UNSOUND
        elif verdict == NOTHING:
            same = meters.is_same(text)
            verdict = SAME if same else reason_of(taxi, meters.form.encode(), text.encode(), driver) or MISSED
        counts.add(verdict, size, name)
    for name, params in wrong_params(meters.params):
        verdict = meters.judged(meters.form, params) if params != meters.params else SAME
        counts.add(MISSED if verdict == NOTHING else verdict, LARGE, name)


def driver_of(params, fastest=FASTEST, longest=LONGEST):
    said = dict(line.split(" ", 1) for line in params.splitlines() if line and not line.startswith("#"))
    constant = int(said["constant"])
    fast = max(1, fastest * constant // 36_000)
    return Driver(fast, longest * 600, datetime.date.fromisoformat(said["secured"]), constant)


def beside(meters):
    """How many hirings right meters a little beside show otherwise: not permitted, and within what is permitted."""
    for name, change in BESIDE.items():
        off = other = 0
        for text, right in zip(meters.drives, meters.right):
            shown = meters.drive(change(text), meters.form)
            wrong = sum(verdict != "PASS" for verdict in meters.verdicts(text, shown))
            off += wrong
            other += sum(one.fare != two.fare for one, two in zip(shown, right)) - wrong
        yield name, off, other


def passes(meters):
    """Whether the right meter passes."""
    return all(set(meters.verdicts(text, right)) == {"PASS"} for text, right in zip(meters.drives, meters.right))
