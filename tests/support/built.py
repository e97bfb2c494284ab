"""The built programs, and a folder like a checkout whose programs are these themselves, without their wrappers."""

import collections
import os
import pathlib
import re
import shutil
import subprocess
import sys

TOP = pathlib.Path(__file__).resolve().parents[2]
TAXI = TOP / "crates/taxi_cli/out/taxi_cli"
HIRING_LOG = TOP / "crates/hiring_log/out/hiring_log"
CITY, PARAMS = TOP / "examples/city.tariff", TOP / "examples/taxi.params"


class Amiss(Exception):
    """What isn't as it has to be."""


def expect(holds, what):
    if not holds:
        raise Amiss(what)


def need(test, *programs):
    """Ends a test where a program that it needs isn't built."""
    for program in programs:
        if not os.access(program, os.X_OK):
            sys.exit(f"{test}: {program} is not there; build it first, by bin/taxi or bin/hiring_log")


def own_calls(words, folder, trace, own):
    """The system calls of a program from the first on in whose line this stands, each by its name and which of this name it
    is. Those before it find the libraries."""
    subprocess.run(["strace", "-qq", "-o", trace, *words], cwd=folder, stdin=subprocess.DEVNULL, capture_output=True, check=True)
    seen, found = collections.Counter(), []
    for line in trace.read_text(errors="replace").splitlines():
        name = line.partition("(")[0]
        seen[name] += 1
        if name.isidentifier() and (found or re.search(own, line) and name != "execve"):
            found.append((name, seen[name]))
    return found


def tree(folder):
    """Makes that folder, and gives its tools."""
    shutil.copytree(TOP / "tools", folder / "tools", ignore=shutil.ignore_patterns("__pycache__"))
    (folder / "bin").mkdir()
    (folder / "bin/taxi").symlink_to(TAXI)
    (folder / "bin/hiring_log").symlink_to(HIRING_LOG)
    return folder / "tools"
