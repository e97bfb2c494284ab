"""A taxi whose runs are broken off in many ways: killed at a system call or at some time, at an error of a call, by an
output that is closed or full."""

import pathlib
import re
import resource
import signal
import subprocess
import time

from broken_drives import drive_of
from support.built import CITY, PARAMS, TAXI, own_calls

STORE = "taxi.store"
ERRORS = {"write": ["ENOSPC", "EIO", "EDQUOT"], "fsync": ["EIO", "ENOSPC"], "lseek": ["EIO"], "read": ["EIO"]}
WAYS = {"kill": 60, "error": 15, "closed": 10, "full": 10, "time": 5}
INPUT_FAILED = 7


def with_line(text, key, value):
    """A text in which the line of a key has another value."""
    return re.sub(f"(?m)^{key} .*", f"{key} {value}", text)


class Taxi:
    """A folder with a sealed store, a drive, and the roll of what is printed."""

    def __init__(self, folder, draw):
        self.folder, self.draw = pathlib.Path(folder), draw
        may_expire = draw.random() < 0.3  # then under a tariff that shows little in ten days
        tariff, params = CITY.read_text(), PARAMS.read_text()
        self.put("tariff", with_line(tariff, "step", "100.00 ahead") if may_expire else tariff)
        self.hold = draw.choice([0, 60, 120, 600])
        for key, value in (
            ("hold", self.hold), ("constant", draw.choice([500, 10_000, 14_230, 200_000])),
            ("mode", draw.choice(["single", "double"])),
        ):
            params = with_line(params, key, value)
        self.put("params", params)
        self.call("seal", "tariff", "params")
        if draw.random() < 0.5:  # a store that has totals, and perhaps holds a trip
            self.put("before", drive_of(draw, self.hold, may_expire))
            self.call("run", "tariff", "before")
        self.put("drive", drive_of(draw, self.hold, may_expire))
        self.opening = self.image()

    def put(self, name, content):
        (self.folder / name).write_bytes(content if isinstance(content, bytes) else content.encode())

    def call(self, *words):
        done = subprocess.run([TAXI, *words], cwd=self.folder, capture_output=True, check=True)
        return done.stdout

    def image(self):
        return (self.folder / STORE).read_bytes()

    def calls_of(self, drive):
        """The system calls of a run from the first on that names the store, which is put back."""
        before = self.image()
        found = own_calls([TAXI, "run", "tariff", drive], self.folder, self.folder / "calls", STORE)
        self.put(STORE, before)
        return found

    def way(self, has_calls):
        ways = WAYS if has_calls else {way: share for way, share in WAYS.items() if way not in ("kill", "error")}
        return self.draw.choices(list(ways), list(ways.values()))[0]

    def at_call(self, way, calls, words):
        """A run that strace breaks off at one of its calls."""
        name, number = self.draw.choice([call for call in calls if way == "kill" or call[0] in ERRORS])
        what = "signal=KILL" if way == "kill" else f"error={self.draw.choice(ERRORS[name])}"
        return ["strace", "-qq", "-o", "/dev/null", "-e", f"inject={name}:{what}:when={number}", *words]

    def full_behind(self, length):
        """What a run does at its start, so that the roll takes only so many bytes more; a signal may tell it, and end it."""
        limit = max(len(self.image()), (self.folder / "roll").stat().st_size + length)
        action = self.draw.choice([signal.SIG_DFL, signal.SIG_IGN])

        def start():
            resource.setrlimit(resource.RLIMIT_FSIZE, (limit, limit))
            signal.signal(signal.SIGXFSZ, action)

        return start

    def broken(self, drive, calls, length, took):
        """Carries out a drive that breaks off somewhere, printing behind the roll; gives the way and the status. The drive
        would print so many bytes, and take so long."""
        way, words, start = self.way(calls), [TAXI, "run", "tariff", drive], None
        if way in ("kill", "error"):
            words = self.at_call(way, calls, words)
        elif way == "closed":
            bytes_read = self.draw.randrange(length + 1)
            words = ["bash", "-c", f'"$@" | head -c {bytes_read}; exit "${{PIPESTATUS[0]}}"', "-", *words]
        elif way == "full":
            start = self.full_behind(self.draw.randrange(length + 1))
        with (self.folder / "roll").open("ab") as roll:
            run = subprocess.Popen(words, cwd=self.folder, stdout=roll, stderr=subprocess.DEVNULL, preexec_fn=start,
                                   restore_signals=start is None)
            if way == "time":
                time.sleep(self.draw.random() * took)
                run.kill()
            return way, run.wait()
