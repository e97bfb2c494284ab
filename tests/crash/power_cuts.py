"""Cuts of the power under the built program, for tests/crash/cuts: folders with what a cut has left, the program under strace on
them, and what has to hold behind a cut."""

import concurrent.futures
import copy
import os
import pathlib
import re
import shutil
import subprocess
import sys
import tempfile

import medium
from each_call import ROWS
from support import roll
from support.roll import units

TOP = pathlib.Path(__file__).resolve().parents[2]
PROGRAM = os.environ.get("TAXI_PROGRAM") or str(TOP / "crates/taxi_cli/out/taxi_cli")
TARIFF, PARAMS = str(TOP / "examples/city.tariff"), str(TOP / "examples/taxi.params")
MORNING_DRIVE = str(TOP / "examples/morning.drive")
STORE = "taxi.store"
SEAL = ["seal", TARIFF, PARAMS]
NEXT_DRIVE = "U 1900000000\nK H\nI 0 1\nI 20 100\nK S\nI 0 1\nK C\nI 0 1\n"


class Folder:
    """A working folder with these contents; where the store lies in the folder beside it, a link leads there. A file
    with several names has them all."""

    def __init__(self, within, contents):
        self.top = os.path.realpath(tempfile.mkdtemp(dir=within))
        self.work = os.path.join(self.top, "work")
        for name in ("work", "other"):
            os.mkdir(os.path.join(self.top, name))
        if os.path.join("other", STORE) in contents:
            os.symlink(os.path.join("..", "other", STORE), os.path.join(self.work, STORE))
        made = {}
        for path, (number, content) in contents.items():
            place = pathlib.Path(self.top, path)
            if number in made:
                place.hardlink_to(made[number])
            else:
                place.write_bytes(content)
                made[number] = place

    def absolute(self, contents):
        return {os.path.join(self.top, path): content for path, content in contents.items()}

    def relative(self, contents):
        return {os.path.relpath(path, self.top): content for path, content in contents.items()}

    def store(self):
        return 0, pathlib.Path(self.work, STORE).read_bytes()

    def run(self, *words):
        ran = subprocess.run([PROGRAM, *words], cwd=self.work, capture_output=True, text=True, check=False)
        return ran.returncode, ran.stdout

    def totals(self):
        """The status of `totals`, its lines as a mapping, and its text."""
        status, text = self.run("totals")
        return status, dict(line.split(" ", 1) for line in text.splitlines() if " " in line), text


class Tried:
    """How many cuts were tried, and what was off; how many were counted apart, and behind how many of these something was
    lost."""

    def __init__(self, within, dice, writes_again=True):
        self.within, self.dice, self.writes_again = within, dice, writes_again
        self.cuts, self.faults, self.apart, self.lost = 0, [], 0, 0

    def each(self, what, moments, check, folder, most, apart=False):
        """Tries what cuts at these moments may leave, each once; gives what was left, with its moment."""
        cuts = {}
        for moment in moments:
            for left in medium.left_by_cuts(moment.medium, self.dice, most):
                key = (tuple(sorted(left.items())), str(moment.medium.begun), str(moment.medium.rested), moment.printed)
                cuts[key] = (folder.relative(left), moment)
        cuts = list(cuts.values())
        with concurrent.futures.ThreadPoolExecutor(os.cpu_count()) as several:
            faults = [fault for fault in several.map(lambda cut: self.fault_of(check, *cut), cuts) if fault]
        if apart:
            self.apart += len(cuts)
            self.lost += len(faults)
        else:
            self.cuts += len(cuts)
            self.faults += [f"{what}: {fault}" for fault in faults]
        return cuts

    def is_over(self):
        """Whether what was left out was found, so that nothing more is to be tried."""
        return bool(self.faults) and not self.writes_again

    def fault_of(self, check, left, moment):
        found = Folder(self.within, left)
        fault = check(found, moment)
        shutil.rmtree(found.top)
        return fault


def traced(tried, contents, words, numbers=None, killed=None, inject=(), printed=b""):
    """Runs the program under strace on these contents, with what a killed one had not synced in its folder; gives the
    folder, the moments, and what was printed, also by those before. Where strace lets a call fail it may end with 8, and
    has to where a sync failed."""
    folder = Folder(tried.within, contents)
    state = moved_to(folder, *killed) if killed else medium.Medium(folder.absolute(contents), numbers)
    trace = os.path.join(folder.top, "trace")
    calls, said, status = medium.calls_of([PROGRAM, *words], folder.work, trace, inject)
    has_failed = any(name in medium.SYNCS and result < 0 for name, _, result in calls)
    if has_failed and status != 8:
        tried.faults.append(f"{words[0]} ends with {status}, and a sync failed")
    if status not in ({0, 4} if words[0] == "totals" else {0}) | ({8} if inject else set()):
        sys.exit(f"cuts: {words[0]} ends with {status} in {sorted(contents)}")
    moments = list(medium.moments_of(state, calls, folder.work, printed, tried.writes_again))
    return folder, moments, said.decode()


def moved_to(folder, state, before):
    """What a killed program left in a folder, with what it hadn't synced, as it lies in another one."""
    there = lambda path: os.path.join(folder.top, os.path.relpath(path, before.top))
    state = copy.deepcopy(state)
    state.names = {there(path): number for path, number in state.names.items()}
    state.kept = {there(path): number for path, number in state.kept.items()}
    state.moves = [(there(path), number) for path, number in state.moves]
    state.doubtful = [(there(path), number) for path, number in state.doubtful]
    state.opened = {}
    return state


def allowed(moment, pair):
    """Which numbers of a pair a cut at a moment may leave."""
    return range(moment.medium.rested[pair], moment.medium.begun[pair] + 1)


def check_sealing(before):
    """What has to hold behind a cut of a sealing, over these totals or where there were none."""

    def check(found, moment):
        status, _, text = found.totals()
        if status not in (0, 4) or (status == 0 and text != before) or (status == 4 and text != "NOT SEALED\n"):
            return f"totals ends with {status}: {text}"
        is_sealed = status == 0
        status, said = found.run("seal", TARIFF, PARAMS)
        if status != 0:
            return f"the next sealing ends with {status}: {said}"
        number = int(said.split()[1]) - 1
        if is_sealed != (number > 0) or number not in allowed(moment, "seal"):
            return f"seal {number} is found, and not {allowed(moment, 'seal')}"
        for told in re.findall(r"^SEALED (\d+)$", moment.printed.decode(), re.MULTILINE):
            if int(told) > number:
                return f"seal {told} was told, and {number} is found"
        return None

    return check


def receipts_in(text):
    """The whole receipts of a text: number, fare, supplements and distance in their smallest units."""
    found = [receipt.fields for receipt in roll.receipts_in(text.encode())]
    return [(one["receipt"], *(units(one[name]) for name in ("fare", "supplements", "distance"))) for one in found]


def differ(totals, receipts):
    """Whether totals aren't the sums over receipts."""
    sums = [len(receipts), *(sum(receipt[field] for receipt in receipts) for field in (1, 2, 3))]
    return sums != [units(totals[row].removesuffix(" m")) for row in ROWS[:4]]


def check_run(receipts, rows):
    """What has to hold behind a cut of a run: totals by these receipts, and by these rows where there are any."""

    def check(found, moment):
        status, totals, text = found.totals()
        if status != 0:
            return f"totals ends with {status}: {text}"
        number = int(totals["NUMBER"])
        if number not in allowed(moment, "totals"):
            return f"number {number} is found, and not {allowed(moment, 'totals')}"
        entered = [receipt for receipt in receipts if receipt[0] <= number]
        if differ(totals, entered) or (rows and rows[number] != tuple(totals[row] for row in ROWS)):
            return f"the totals are not those of number {number}: {text}"
        for what, told in re.findall(r"^(RECEIPT|NUMBER) (\d+)$", moment.printed.decode(), re.MULTILINE):
            if int(told) > number:
                return f"{what} {told} had begun to print, and number {number} is found"
        pathlib.Path(found.work, "next.drive").write_text(NEXT_DRIVE)
        status, said = found.run("run", TARIFF, "next.drive")
        more = receipts_in(said)
        if status != 0 or not more or more[0][0] <= number or differ(found.totals()[1], entered + more):
            return f"the next run ends with {status}, and its totals are not those of its receipts: {said}"
        return None

    return check
