"""Small fleets for the trials of tools/fleet: folders with sealed stores and drives, and calls of the tool."""

import csv
import io
import shutil
import subprocess
import sys

from support import built
from support.built import CITY as TARIFF
from support.built import PARAMS, TOP

TOOLS = {"fleet": TOP / "tools/fleet"}  # the one that is tried
BEGINS = 1_772_434_800
# Names that a shell would take for something else. The file `made` must never come.
NAMES = ["HG 1", "a;touch made", "line\nend", "$(touch made)", "it's 'one'", "-e", "{}", "`touch made`", "x\\", "é ü"]


def expect(what, found, wanted):
    if found != wanted:
        sys.exit(f"fleet: {what}: {found!r} and not {wanted!r}")


def day(second, trips):
    """A drive of trips of 15 minutes, and of as long for hire behind each; the clock is read each minute."""
    lines = [f"U {second}"]
    for trip in range(trips):
        for minute in range(30):
            if minute in (0, 14, 15):
                lines.append("K " + {0: "H", 14: "S", 15: "C"}[minute])
            lines += [f"I {(minute * 7 + trip) % 15} {each}" for each in (100, 200, 300)]
            second += 60
            lines.append(f"C {second}")
    return "".join(f"{line}\n" for line in lines)


def trips(second, count):
    """A drive of short trips, with some driving for hire before each."""
    lines = [f"U {second}"]
    for trip in range(count):
        second += 60
        lines += ["I 9 30", "K H", "I 0 1", f"I 15 {40 + trip}", "K S", "I 0 1", f"C {second}", "K C", "I 0 1"]
    return "".join(f"{line}\n" for line in lines)


def rows_in(text):
    return list(csv.DictReader(io.StringIO(text, newline="")))


def fleet(*words, folder, tool=None):
    """The rows that the tool prints, its status, and what it says."""
    done = subprocess.run([tool or TOOLS["fleet"], *words], cwd=folder, capture_output=True, check=False)
    return rows_in(done.stdout.decode()), done.returncode, done.stderr.decode()


def tree(place, script):
    """The tool in a folder like a checkout, where a program is a script: it begins as said, NAME being the program's,
    and goes on as the program."""
    tools = built.tree(place)
    for name, program in (("taxi", built.TAXI), ("hiring_log", built.HIRING_LOG)):
        starter = place / "bin" / name
        starter.unlink()
        starter.write_text(f'#!/bin/bash\n{script}\nexec "{program}" "$@"\n'.replace("NAME", name))
        starter.chmod(0o755)
    return tools / "fleet"


def taxi(folder, *words):
    """What the program prints, and its status."""
    done = subprocess.run([built.TAXI, *words], cwd=folder, capture_output=True, check=False)
    return done.stdout.decode(), done.returncode


def taxis(place, names, drive):
    """Folders with a drive and a sealed store, of which the first was sealed and the others are as new as it."""
    for name in names:
        (place / name).mkdir(parents=True)
        (place / name / "drive").write_text(drive)
    first = place / names[0]
    expect("a sealing", taxi(first, "seal", TARIFF, PARAMS), ("SEALED 1\n", 0))
    for name in names[1:]:
        shutil.copy(first / "taxi.store", place / name / "taxi.store")
    return [f"./{name}" for name in names]
