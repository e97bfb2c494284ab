"""A meter that runs live: the proved program on a store, fed with the lines of a drive as they come."""

import collections
import contextlib
import datetime
import itertools
import os
import re
import signal
import subprocess
import threading
import time

from heglorwy.program import TOP, Refused, called

INTERVAL = 0.1  # seconds, the measuring interval of docs/METER.md
SECOND = 10  # intervals
KEPT = 20_000  # so many printed lines are kept for the page
DISPLAY = re.compile(r"(FOR HIRE|HIRED|STOPPED) T[0-9] Z[0-9](?: (\S+) \+(\S+))?")
READS_CLOCK = ("H", "C")  # the keys before which the clock is read


class Printed:
    """What the program printed, line by line: the last lines, the last display, and how many receipts came whole."""

    def __init__(self):
        self.lock = threading.Lock()
        self.lines, self.first, self.display, self.receipts = collections.deque(), 0, None, 0

    def keep(self, stream):
        """Keeps the lines of a stream up to its end, a last one without an end of its own too."""
        for line in stream:
            with self.lock:
                self.take(line.decode("ascii", "replace").rstrip("\n"))

    def take(self, line):
        self.lines.append(line)
        self.display = DISPLAY.fullmatch(line) or self.display
        self.receipts += line == "END"
        if len(self.lines) > KEPT:
            self.lines.popleft()
            self.first += 1

    def since(self, number):
        """The lines from a number on, counted from the first that was ever printed."""
        with self.lock:
            at = max(0, number - self.first)
            return {"lines": list(self.lines)[at:], "next": self.first + len(self.lines)}


def new_drive(folder):
    """A new file for the drive of one start: panel.drive, and panel.2.drive and so on where earlier ones are there."""
    for number in itertools.count(1):
        path = folder / ("panel.drive" if number == 1 else f"panel.{number}.drive")
        try:
            path.open("x").close()
            return path
        except FileExistsError:
            continue
        except OSError as error:
            raise Refused(7, f"{path.name} can't be written: {error.strerror}") from None


def hirings_in(folder):
    """The totals of the store as they are printed, and how many hirings they have; nothing where there are none."""
    text = called("taxi", folder, "totals")[0].decode("ascii", "replace")
    found = re.search("^HIRINGS ([0-9]+)$", text, re.MULTILINE)
    return text, int(found[1]) if found else 0


class LiveMeter:
    """`taxi run TARIFF /dev/stdin` in a folder with a sealed store. Its clock begins at a second and runs `pace` times as
    fast as the real one; at each interval the taxi drives with `speed`, in km/h. What was sent to one start of the program
    is kept in the folder as one drive. Without supply time passes, and nothing but keys is sent."""

    def __init__(self, folder, tariff, meter, began):
        self.folder, self.tariff, self.meter, self.began = folder, tariff, meter, began
        self.speed, self.pace = 0, 1
        self.ticks, self.way = 0, 0.0
        self.lost_at, self.away = None, None  # the second at which the supply was lost; how long it was away
        self.killed, self.fault = None, None  # what is told of a kill; why the drive can't be kept
        self.printed, self.opening = Printed(), hirings_in(folder)[1]
        self.lock, self.over = threading.RLock(), threading.Event()
        self.start()
        threading.Thread(target=self.keep_time, daemon=True).start()

    def second(self):
        return self.began + self.ticks // SECOND

    def start(self):
        """Starts the program with a drive of its own, and the supply comes."""
        self.drive, self.kept, self.fault = new_drive(self.folder), 0, None
        self.printed.display = None
        self.program = subprocess.Popen([TOP / "bin/taxi", "run", self.tariff, "/dev/stdin"], cwd=self.folder,
                                        stdin=subprocess.PIPE, stdout=subprocess.PIPE, start_new_session=True)
        self.reader = threading.Thread(target=self.printed.keep, args=[self.program.stdout], daemon=True)
        self.reader.start()
        self.send(f"U {self.second()}")

    def send(self, *lines):
        """Lines of the drive, for the file and then for the program."""
        text = "".join(f"{line}\n" for line in lines).encode()
        with self.lock:
            if self.fault or self.program.poll() is not None or not self.keep(text):
                return
            with contextlib.suppress(BrokenPipeError):  # the program has ended, which its status says
                self.program.stdin.write(text)
                self.program.stdin.flush()

    def keep(self, text):
        """Writes lines into the drive's file, whole or not at all; where that fails the meter's input ends."""
        try:
            with open(self.drive, "ab", buffering=0) as drive:
                if drive.write(text) != len(text):
                    raise OSError(0, "no room")
        except OSError as error:
            self.fault = f"{self.drive.name} can't be written: {error.strerror}"
            with contextlib.suppress(OSError):
                os.truncate(self.drive, self.kept)
            with contextlib.suppress(BrokenPipeError):
                self.program.stdin.close()
            return False
        self.kept += len(text)
        return True

    def press(self, key):
        """A key; before Hire and Clear the clock is read. What was told of a kill goes with the next hiring."""
        with self.lock:
            self.killed = None if key == "H" else self.killed
            is_read = key in READS_CLOCK and self.lost_at is None
            self.send(*([f"C {self.second()}"] if is_read else []), f"K {key}")

    def keep_time(self):
        """Lets the time pass."""
        due = time.monotonic() + INTERVAL
        while not self.over.wait(max(0.0, due - time.monotonic())):
            due += INTERVAL
            with self.lock:
                if not self.over.is_set():
                    self.pass_time(self.pace)

    def pass_time(self, count):
        """So many intervals pass. With supply they are sent, and behind each second a reading of the clock."""
        lines = []
        while count:
            few = min(count, SECOND - self.ticks % SECOND)
            lines += self.intervals(few) if self.lost_at is None else []
            self.ticks += few
            count -= few
            if self.ticks % SECOND == 0 and self.lost_at is None:
                lines.append(f"C {self.second()}")
        if lines:
            self.send(*lines)

    def intervals(self, count):
        """The lines of so many intervals, with the pulses of the way that is driven in them."""
        self.way += self.speed / 3.6 * INTERVAL * count * self.meter.constant / 1000
        pulses = int(self.way)
        self.way -= pulses
        each, more = divmod(pulses, count)
        parts = [(each + 1, more), (each, count - more)]
        return [f"I {per} {number}" for per, number in parts if number]

    def lose_supply(self):
        """The supply is lost; tells whether there was one."""
        with self.lock:
            if self.lost_at is not None:
                return False
            self.send("D")
            self.lost_at = self.second()
            return True

    def regain_supply(self):
        """The supply comes again; tells whether it was away."""
        with self.lock:
            if self.lost_at is None:
                return False
            self.away, self.lost_at = self.second() - self.lost_at, None
            self.send(f"U {self.second()}")
            return True

    def end(self):
        """The drive ends with a loss of supply, which the program reads, and so does the program; its status."""
        with self.lock:
            self.over.set()
            if self.lost_at is None:
                self.send("D")
            with contextlib.suppress(BrokenPipeError):
                self.program.stdin.close()
        self.reader.join()
        return self.program.wait()

    def kill(self):
        """Ends the program by its id, as a cut of its power would, keeps what is to be told of it, and starts the program
        again; tells whether there was a supply."""
        with self.lock:
            if self.lost_at is not None:
                return False
            with contextlib.suppress(ProcessLookupError):
                os.killpg(self.program.pid, signal.SIGKILL)
            self.reader.join()
            self.program.wait()
            with contextlib.suppress(BrokenPipeError):
                self.program.stdin.close()
            self.away, self.killed = None, self.told()
            try:
                self.start()
            except Refused as why:
                self.fault = str(why)
            return True

    def told(self):
        """What a kill lost, and what the store has."""
        totals, hirings = hirings_in(self.folder)
        display, is_torn = self.printed.display, hirings > self.opening + self.printed.receipts
        self.opening = hirings - self.printed.receipts
        lost = "No trip was going on. Metres for hire since the last entry are in no total."
        if is_torn:
            lost = "A trip had just ended: the store has it, and its receipt was not printed whole."
        elif not display:
            lost = "It had shown nothing yet."
        elif display[1] != "FOR HIRE":
            lost = f"The trip that was going on showed {display[2]}, and supplements of {display[3]}. "
            lost += "It is lost: it has no receipt, and is in no total." if "\nHELD yes\n" not in totals else (
                "What came behind the last loss of supply is lost. The store has the trip as it was then: it goes on from there "
                f"if that was at most {self.meter.hold} s ago.")
        return {"lost": lost, "totals": totals}

    def since(self, number):
        """What the page is to know, and the lines from that number on, of all that were printed."""
        with self.lock:
            now = self.second()
            local = datetime.datetime.fromtimestamp(now + self.meter.offset_at(now), datetime.timezone.utc)
            return self.printed.since(number) | {
                "clock": f"{local:%a %Y-%m-%d %H:%M:%S}", "dark": None if self.lost_at is None else now - self.lost_at,
                "away": self.away, "killed": self.killed, "status": self.program.poll(), "fault": self.fault,
                "drive": self.drive.name, "speed": self.speed, "pace": self.pace}
