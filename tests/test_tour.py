"""docs/TOUR.md is for a folder of its own: the line with which it begins makes one, in which the commands behind it work,
and nothing that they make lies in the checkout. Each program that they call is named with the time that its build takes."""

import os
import pathlib
import re
import shutil
import subprocess
import sys

TOP = pathlib.Path(__file__).resolve().parents[1]
sys.path[:0] = [str(TOP / folder) for folder in ("tools", "tests")]
from support.built import need

PAGE = (TOP / "docs/TOUR.md").read_text()
BLOCKS = re.findall(r"(?ms)^```(\w*)[^\n]*\n(.*?)^```", PAGE)
COMMAND = re.compile(r"(?m)^\$ (.*(?:\n> .*)*)")
NAMED = ("bin", "lib", "docs", "examples", "crates.txt", "VERSION")


def a_checkout(within):
    """A copy of what the commands need, whose programs are those that were built, as links."""
    for name in NAMED:
        (shutil.copytree if (TOP / name).is_dir() else shutil.copy)(TOP / name, within / name)
    for program, crate in (("taxi", "taxi_cli"), ("hiring_log", "hiring_log")):
        need("tour", TOP / f"crates/{crate}/out/{crate}")
        (within / f"bin/{program}").write_text(f'#!/bin/sh\nexec "{TOP}/bin/{program}" "$@"\n')
    return within


def files_of(folder):
    return sorted(str(path.relative_to(folder)) for path in folder.rglob("*"))


def test_it_leaves_nothing_in_the_checkout(tmp_path):
    (tmp_path / "top").mkdir()
    (tmp_path / "home").mkdir()
    top = a_checkout(tmp_path / "top")
    before = files_of(top)
    assert [kind for kind, _ in BLOCKS][0] == "sh", "no line makes a folder before the first command"
    commands = [found.replace("\n> ", "\n") for kind, text in BLOCKS if kind == "console" for found in COMMAND.findall(text)]
    assert len(commands) >= 20
    script = "\n".join([BLOCKS[0][1], "pwd", *(f"{{ {command}\n}} >>all.said 2>&1" for command in commands), "exit 0"])
    environment = {**os.environ, "HOME": str(tmp_path / "home"), "TAXI_TODAY": "2026-03-02"}
    done = subprocess.run(["bash", "-c", script], cwd=top, env=environment, capture_output=True, text=True, check=True)
    trial = tmp_path / "home/trial"
    assert done.stdout.split() == [str(trial)] and files_of(top) == before
    assert {"taxi.store", "taxi.log", "my.roll", "tidy.tariff", "bad.drive"} <= {path.name for path in trial.iterdir()}
    said = (trial / "all.said").read_text()
    for printed in ("OK CELLS 336 MEASURE 890000", "SEALED 1", "FILED 2", "RECEIPT 2 RECEIPT 5", "3,ABORTED,3.90"):
        assert printed in said, said


def test_each_build_is_told_before_it_begins():
    for place, program in enumerate(("bin/taxi", "bin/hiring_log"), 1):
        before = PAGE[: PAGE.index(f"$ {program} ")]
        assert len(re.findall(r"proves and builds (?:the program|it), which takes [^.]*minutes", before)) == place, program
