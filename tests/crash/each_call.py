"""Kills a program at each system call of its own, and lets each that may fail do so with each error: for tests/crash/kill. What
is broken off, and what has to stand behind it, is a subject's matter."""

import os
import pathlib
import re
import shutil
import subprocess

from support.built import own_calls

TOP = pathlib.Path(__file__).resolve().parents[2]
TARIFF, CITY, PARAMS, DRIVE = (
    str(TOP / "examples" / name) for name in ("simple.tariff", "city.tariff", "taxi.params", "morning.drive")
)
OWN = r"taxi\.(store|log)|city\.tariff"  # the first call that names one of these is the program's own
# The errors that a call may give, of those that a medium or a signal causes.
ERRORS = [
    (r"read|pread64", "EIO EINTR"), (r"write|pwrite64", "EIO ENOSPC EINTR EDQUOT"),
    (r"fsync|fdatasync|open|openat", "EIO ENOSPC EINTR EDQUOT EROFS"),
    (r"link|linkat|rename|renameat\w*", "EIO ENOSPC EDQUOT EROFS"), (r"unlink|unlinkat", "EIO EROFS"),
    (r"ftruncate", "EIO EINTR EROFS"), (r"flock", "EINTR"),
    (r"lseek|fstat|newfstatat|statx|fcntl|fadvise64|readlink\w*", "EIO"),
]


class Trial:
    """How many calls were tried, what was off, and what could not be tried."""

    def __init__(self, within):
        self.within, self.tried, self.faults, self.untried = pathlib.Path(within), 0, [], []

    def expect(self, holds, fault):
        if not holds:
            self.faults.append(fault)

    def tell(self, tried, what):
        print(what, flush=True)
        self.tried += tried
        if not tried:
            self.untried.append(f"nothing was tried: {what}")


class Subject:
    """A call of a program in a folder of its own: what it is called, the program and its words."""

    def __init__(self, trial, what, program, words):
        self.trial, self.what, self.program, self.words = trial, what, program, words
        self.folder, self.told, self.status, self.found = trial.within / "store", "", 0, {}

    def fresh(self):
        """A new folder, as it is before the call."""
        for name in ("store", "medium"):
            shutil.rmtree(self.trial.within / name, ignore_errors=True)
            (self.trial.within / name).mkdir()

    def call(self, *words, inject=None):
        """What the program prints, without the last line's end, and its status; strace may break it off."""
        tracing = ["strace", "-qq", "-o", "/dev/null", "-e", f"inject={inject}"] if inject else []
        done = subprocess.run(
            [*tracing, self.program, *words], cwd=self.folder, stdin=subprocess.DEVNULL, stdout=subprocess.PIPE,
            stderr=subprocess.DEVNULL, check=False,
        )
        return done.stdout.decode().rstrip("\n"), done.returncode

    def break_off(self, inject):
        self.fresh()
        self.told, self.status = self.call(*self.words, inject=inject)

    def calls(self):
        """The program's own system calls, each by its name and which of this name it is."""
        self.fresh()
        return own_calls([self.program, *self.words], self.folder, self.trial.within / "calls", OWN)

    def count(self, what):
        self.found[what] = self.found.get(what, 0) + 1

    def tally(self):
        return ", ".join(f"{times} times {what}" for what, times in sorted(self.found.items())) or "nothing"

    def kill_each(self):
        """Kills it at each call."""
        self.found, tried = {}, 0
        for name, number in self.calls():
            self.break_off(f"{name}:signal=KILL:when={number}")
            self.look(f"{self.what}, killed at {name} {number}")
            tried += 1
        self.trial.tell(tried, f"{self.what}: killed at each of {tried} system calls; found were {self.tally()}")

    def fail_each(self):
        """Lets each call fail, with each error. Where the call ends with 0 it prints what it prints whole."""
        self.found, tried, passed = {}, 0, 0
        for name, number in self.calls():
            for error in next((errors.split() for names, errors in ERRORS if re.fullmatch(names, name)), []):
                self.break_off(f"{name}:error={error}:when={number}")
                what = f"{self.what}, {name} {number} fails with {error}"
                self.trial.expect(self.is_told(), f"{what}: status {self.status} tells {self.told}")
                self.look(what)
                tried, passed = tried + 1, passed + (self.status == 0)
        self.trial.tell(tried, f"{self.what}: {tried} errors of calls, {passed} passed over; found were {self.tally()}")

    def is_told(self):
        """Whether a call of which something failed told what belongs to its status."""
        if self.status == 7:
            return self.told.split("\n")[-1] == "READ FAULT" and (self.told == "READ FAULT" or self.may_begin())
        return self.told == self.whole() if self.status == 0 else self.status == 8


class Sealing(Subject):
    """A sealing over a number of sealings, or over a link to a store."""

    def __init__(self, trial, program, before, by_link=False):
        what = f"a sealing over {before} sealings{', by a link' if by_link else ''}"
        super().__init__(trial, what, program, ["seal", TARIFF, PARAMS])
        self.before, self.by_link = before, by_link

    def fresh(self):
        super().fresh()
        for _ in range(self.before):
            if self.call(*self.words)[1]:
                raise SystemExit("kill: a sealing failed")
        if self.by_link:
            (self.folder / "taxi.store").rename(self.trial.within / "medium/taxi.store")
            (self.folder / "taxi.store").symlink_to("../medium/taxi.store")

    def whole(self):
        return f"SEALED {self.before + 1}"

    def may_begin(self):
        return False

    def look(self, what):
        """Totals are whole or there are none, and the seal is the old one or the new one; one that was told is there."""
        expect, (printed, ended) = self.trial.expect, self.call("totals")
        if ended != 4 and printed.split("\n")[0] != "NUMBER 1":
            expect(False, f"{what}: totals ends with {ended}: {printed}")
            return
        expect(ended != 4 or self.before == 0, f"{what}: a seal was lost")
        said, status = self.call(*self.words)
        expect(status == 0, f"{what}: sealing again ends with {status}")
        following = int(said.removeprefix("SEALED ") or 0) if status == 0 else 0
        expect(following - self.before in (1, 2), f"{what}: the next seal is {following}")
        self.count("the old state" if following - self.before == 1 else "the new one")
        expect(ended != 4 or following == 1, f"{what}: totals found no seal, and sealing found one")
        expect(self.told != self.whole() or following == self.before + 2, f"{what}: a seal that was told is lost")


class SecondName(Sealing):
    """A first sealing, or one over a sealing that was killed at a call, here or where a link leads: a kill may leave
    `taxi.store.new` as a second name of the store, where that lies. Behind the start that comes next the other name is
    emptied."""

    def __init__(self, trial, program, killed=None, by_link=False):
        super().__init__(trial, program, 0)
        self.what, self.killed = f"a first sealing{f' that was killed at {killed}, and the next one' if killed else ''}", killed
        self.linked, self.what = by_link, f"{self.what}{', by a link' if by_link else ''}"
        self.names = [(trial.within / "medium" if by_link else self.folder) / name for name in ("taxi.store", "taxi.store.new")]

    def fresh(self):
        super().fresh()
        if self.killed:
            self.call(*self.words, inject=f"{self.killed}:signal=KILL:when=1")
        if self.linked:
            for name in self.names:
                (self.folder / name.name).rename(name)
            (self.folder / "taxi.store").symlink_to("../medium/taxi.store")

    def has_second_name(self):
        return all(name.exists() for name in self.names) and os.path.samefile(*self.names)

    def look(self, what):
        """A start that only reads leaves a second name, the next sealing takes it away, and each one leaves another file that
        has it."""
        expect, other = self.trial.expect, self.names[1]
        if self.has_second_name():
            self.count("a second name")
            self.call("totals")
            expect(self.has_second_name(), f"{what}: a start that only reads took the second name away")
        expect(self.call(*self.words)[1] == 0, f"{what}: the next sealing fails")
        expect(not self.has_second_name(), f"{what}: the second name is there behind the next sealing")
        other.write_bytes(b"")
        for words in (["totals"], self.words):
            printed, status = self.call(*words)
            expect(status == 0, f"{what}: with the other name emptied {words[0]} ends with {status}: {printed}")
        expect(other.exists(), f"{what}: another file under the other name was taken away")

    def kill_each(self):
        super().kill_each()
        if not self.found:
            self.trial.untried.append(f"{self.what}: no kill left a second name")


# The totals of examples/morning.drive behind each commit, by the store's number: a trip, a held trip and its end, and again.
ROWS = ("HIRINGS", "FARE", "SUPPLEMENTS", "HIRED", "DISTANCE", "HELD")
MORNING = {
    1: ("0", "0.00", "0.00", "0.000 m", "0.000 m", "no"), 2: ("1", "4.30", "1.00", "300.000 m", "450.000 m", "no"),
    3: ("1", "4.30", "1.00", "300.000 m", "450.000 m", "yes"), 4: ("2", "8.50", "1.00", "520.000 m", "670.000 m", "no"),
    5: ("2", "8.50", "1.00", "520.000 m", "670.000 m", "yes"), 6: ("3", "12.40", "1.00", "620.000 m", "770.000 m", "no"),
}


class Run(Subject):
    """The run of the morning's drive on a sealed store."""

    def __init__(self, trial, program):
        super().__init__(trial, "a run", program, ["run", CITY, DRIVE])

    def fresh(self):
        super().fresh()
        if self.call("seal", CITY, PARAMS)[1]:
            raise SystemExit("kill: a sealing failed")

    def whole(self):
        return (TOP / "examples/morning.run").read_text().rsplit("status", 1)[0].rstrip("\n")

    def may_begin(self):
        return True

    def look(self, what):
        """The store has the totals after some of the run's commits, each receipt that had begun is among them, and the next
        run goes on. Where the second read of the drive failed, its first 512 bytes end amid the second trip, behind the loss
        of supply that number 3 holds it over, and the supply drops there, which holds it once more as number 4."""
        expect, (printed, status) = self.trial.expect, self.call("totals")
        expect(status == 0, f"{what}: totals ends with {status}")
        rows = dict(line.split(" ", 1) for line in printed.splitlines() if " " in line)
        number = int(rows.get("NUMBER", 0))
        wanted = [MORNING.get(number)] + [MORNING[3]] * (self.status == 7 and number == 4)
        expect(tuple(rows.get(row) for row in ROWS) in wanted, f"{what}: the totals are none of the run: {printed}")
        for receipt in re.findall(r"(?m)^RECEIPT (\d+)", self.told):
            expect(int(receipt) <= number, f"{what}: receipt {receipt} was printed, and the store has number {number}")
        self.count(f"number {number}")
        expect(self.call(*self.words)[1] == 0, f"{what}: the next run fails")


def try_meter(trial, program):
    for before in (0, 1, 2):
        Sealing(trial, program, before).kill_each()
    Sealing(trial, program, 1, by_link=True).kill_each()
    first = SecondName(trial, program)
    first.kill_each()
    for name in sorted({name for name, _ in first.calls() if name.startswith("unlink")}):
        for by_link in (False, True):
            SecondName(trial, program, name, by_link).kill_each()
    for before in (0, 1):
        Sealing(trial, program, before).fail_each()
    Sealing(trial, program, 1, by_link=True).fail_each()
    run = Run(trial, program)
    run.kill_each()
    run.fail_each()
