"""Runs of many taxis side by side, here and on other machines, by GNU parallel and ssh."""

import base64
import collections
import concurrent.futures
import json
import os
import re
import shlex
import shutil
import subprocess
import sys

from heglorwy.program import TOP, Refused, read

MACHINE = re.compile(r"[A-Za-z0-9][A-Za-z0-9._-]*(@[A-Za-z0-9][A-Za-z0-9._-]*)?")


def machines_in(path):
    """The machine of each folder that a file names: an object of JSON."""
    if path is None:
        return {}
    try:
        machines = json.loads(read(path))
    except ValueError as error:
        raise Refused(7, f"{path} is no JSON: {error}") from None
    if not isinstance(machines, dict) or not all(
        isinstance(name, str) and MACHINE.fullmatch(name) for name in machines.values()
    ):
        raise Refused(7, f"{path} has to be an object, with the name of a machine for each folder")
    return machines


def whole_names(name):
    """The whole names of a folder, with links and without."""
    return {os.path.normpath("/" + os.path.abspath(name).lstrip("/")), os.path.realpath(name)}


def named_otherwise(asked):
    """For each folder that an entry names, though not as it stands in the call, that entry."""
    entries = {name: entry for entry in asked.machines for name in whole_names(entry)}
    found = {}
    for folder in asked.folders:
        entry = next((entries[name] for name in whole_names(folder) if name in entries), None)
        if entry is not None and folder not in asked.machines:
            found[folder] = entry
    return found


def job_of(folder, asked):
    """A job as letters and digits alone, so that no shell sees a name."""
    name = folder if folder in asked.machines else os.path.abspath(folder)
    tariff = asked.tariff if folder in asked.machines else tariff_here(asked.tariff)
    return base64.urlsafe_b64encode(json.dumps([name, tariff, asked.drive]).encode()).decode()


def tariff_here(name):
    """A tariff that is here goes by its whole name; any other is one of each folder."""
    return os.path.abspath(name) if os.path.exists(name) else name


def answers_of(machine, jobs, asked):
    """The row of each job that answers, and what was said besides. The jobs run on that machine, or on this one where
    it has no name."""
    words = ["parallel", "--plain", "--will-cite", "-j", "100%"]
    if machine:
        words += ["-S", machine] + (
            ["--ssh", shlex.join(["ssh", "-F", os.path.abspath(asked.ssh)])] if asked.ssh else []
        )
    words += [shlex.quote(asked.there if machine else str(TOP / "tools/fleet")), "one", "{}"]
    done = subprocess.run(words, input="".join(f"{job}\n" for job in jobs), capture_output=True, text=True, check=False)
    rows = {}
    for line in done.stdout.splitlines():
        job, _, row = line.partition(" ")
        if job in jobs:
            rows[job] = json.loads(row)
    said = [line for line in done.stderr.splitlines() if line.strip() and not line.startswith("parallel: Warning: ")]
    return rows, said


def answers_by_machine(jobs, asked):
    """The row of each job that answered, on all machines side by side. What ssh said is printed once a machine."""
    by_machine = collections.defaultdict(dict)  # of jobs as keys, since two names of a folder are one job
    for folder, job in jobs.items():
        by_machine[asked.machines.get(folder, "")][job] = folder
    answers = {}
    with concurrent.futures.ThreadPoolExecutor(len(by_machine) or 1) as pool:
        found = pool.map(lambda machine: answers_of(machine, by_machine[machine], asked), by_machine)
        for machine, (rows, said) in zip(by_machine, found):
            answers |= rows
            for line in dict.fromkeys(said):
                print(f"fleet: {machine or 'here'}: {line}", file=sys.stderr, flush=True)
    return answers


def row_there(row, machine, asked):
    """A row of another machine, which says where a file is to lie that isn't there."""
    name = os.path.basename(asked.tariff)
    if row["status"] == "refused" and not os.path.isabs(asked.tariff) and row["why"].startswith(f"{name}: "):
        row["why"] += f"; a tariff without a whole name lies in each folder on {machine}"
    return row


def rows_of_runs(asked):
    """A row for each folder, in their order, when all have ended."""
    if not shutil.which("parallel"):
        raise Refused(125, "GNU parallel is not installed (on Debian: apt-get install parallel)")
    otherwise = named_otherwise(asked)
    jobs = {folder: job_of(folder, asked) for folder in asked.folders if folder not in otherwise}
    answers = answers_by_machine(jobs, asked)
    for folder in dict.fromkeys(asked.folders):
        machine = asked.machines.get(folder, "")
        if folder in otherwise:
            row = {"status": "refused", "why": f"--machines names this folder as {otherwise[folder]}: name it so"}
        else:
            row = answers.get(jobs[folder], {"status": "unknown", "why": "no answer: look there for begun"})
        yield {"folder": folder, "machine": machine} | (row_there(row, machine, asked) if machine else row)
