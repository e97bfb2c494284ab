"""What the bench says of readings of drives, and what was expected of each hiring; the columns that the bench doesn't
have are compared here."""

import csv
import hashlib
import pathlib
import re
import subprocess
from decimal import Decimal
from typing import NamedTuple

from heglorwy.fineness import compare_speeds, finenesses
from heglorwy.officer.kit_folder import is_near, keys_in, kit_in, needs_of
from heglorwy.officer.levels import most
from heglorwy.officer.readings import EXACT, QUANTITIES, Reading, in_order, readings_in
from heglorwy.officer.sealed import params_for
from heglorwy.officer.showing import shown_in
from heglorwy.program import TOP, Differs, Refused, Scratch, read
from heglorwy.tariff import read_tariff
from heglorwy.tariff_parts import of_kind

EQUAL, WITHIN, OFF, NOT_READ, TOO_MANY = "equal", "within", "not permitted", "not read", "one too many"
DECIMALS = {"distance": 3, "time": 1}
HEADER = "fare,distance,time\n"


class Drive(NamedTuple):
    name: str
    text: bytes

    @property
    def digest(self):
        return hashlib.sha256(self.text).hexdigest()


class Value(NamedTuple):
    """One thing of a hiring: in units, or exact; None where nothing was read or nothing is expected."""

    name: str
    expected: object
    shown: object
    permitted: int | None  # how far it may be off; None for what is compared exactly
    state: str


class Hiring(NamedTuple):
    """A hiring with its values, each beside its reading."""

    number: int
    drive: str
    kind: str
    values: list
    remark: str
    was_driven: bool = True  # as the list of its kit says

    @property
    def passes(self):
        return self.was_driven and all(value.state in (EQUAL, WITHIN) for value in self.values)

    @property
    def was_read(self):
        return self.values[0].state not in (NOT_READ, TOO_MANY)


class Judged(NamedTuple):
    """What was found of all hirings, and of the meter."""

    hirings: list
    drives: list
    sealed: dict  # what `sealed` says, by its words
    offsets: list
    crossovers: list  # of fineness.py
    rates: list  # the `rate` lines
    decimals: int
    form: str
    readings: object
    version: list
    kit: object = None  # of kit_folder.py
    expected: list = []  # of each hiring, by column


def drives_of(path):
    """The drive of a path, or those of a folder in the order of their names."""
    path = pathlib.Path(path)
    if not path.is_dir():
        return [Drive(path.name, read(path))]
    paths = sorted(path.glob("*.drive"))
    if not paths:
        raise Refused(7, f"{path}: there is no file with a name that ends in .drive")
    return [Drive(path.name, read(path)) for path in paths]


class Bench:
    """The program over a store that is sealed with the tariff and the parameters, in a folder of its own."""

    def __init__(self, taxi, asked):
        self.taxi = taxi
        self.tariff = read(asked.tariff)
        self.params = params_for(asked, self.tariff)
        self.seal()
        told = read_tariff(taxi, self.tariff)
        self.decimals, self.step = told.decimals, of_kind(told.lines, "step")[0].parts["amount"]
        self.rates = of_kind(told.lines, "rate")
        self.crossovers = []

    def well(self, *words, **texts):
        """What a command prints; its status has to be one of a whole output."""
        printed, status = self.taxi.call(*words, **texts)
        text = printed.decode()
        if status not in (0, 11):
            status = 2 if status == 3 else status
            raise Refused(status, f"{words[0]} says {(text.splitlines() or ['nothing'])[-1]}")
        return text

    def seal(self):
        pathlib.Path(self.taxi.folder.name, "taxi.store").unlink(missing_ok=True)
        self.well("seal", "tariff", "params", tariff=self.tariff, params=self.params)

    def expected(self, drive):
        """What is expected of each hiring of a drive, by column."""
        rows = self.rows(drive, HEADER)
        explained = self.well("explain", "tariff", "drive", "params", drive=drive.text)
        supplements, positions = (
            re.findall(rf"^{word} (\S+)$", explained, re.MULTILINE) for word in ("SUPPLEMENTS", "POSITION")
        )
        shown = shown_in(self.run(drive))
        of_run = [(one.kind, one.supplements, one.position) for one in shown]
        of_others = [
            (row["kind"], units(supplement, self.decimals), int(position))
            for row, supplement, position in zip(rows, supplements, positions)
        ]
        if of_run != of_others:
            raise Differs(f"{drive.name}: run prints {of_run}, where bench and explain have {of_others}")
        return [
            {
                "fare": units(row["fare"], self.decimals), "distance": units(row["distance"], 3),
                "time": units(row["time"], 1), "receipt": row["kind"],
                **{name: getattr(one, name) for name in ("supplements", "position", "zone", "refused")},
            }
            for row, one in zip(rows, shown)
        ]

    def run(self, drive):
        """What a meter shows and prints of a drive; its store is then made anew."""
        printed = self.well("run", "tariff", "drive", drive=drive.text)
        self.seal()
        return printed

    def rows(self, drive, readings):
        """The rows of the report of the bench."""
        text = self.well("bench", "tariff", "drive", "readings", drive=drive.text, readings=readings.encode())
        lines = text.splitlines()
        self.crossovers = [line for line in lines if line.startswith("CROSSOVER ")]
        return list(csv.DictReader(lines[len(self.crossovers) :]))


def units(amount, decimals):
    return int(Decimal(amount).scaleb(decimals))


def plain_row(values, decimals):
    """A row of readings as the bench reads it."""
    numbers = (Decimal(values[name]).scaleb(-DECIMALS.get(name, decimals)) for name in QUANTITIES)
    return ",".join(f"{number:f}" for number in numbers) + "\n"


def values_of(expected, reading, step, needed=()):
    """Each value of a hiring beside its reading. A column that the bench doesn't have is looked at where it was read,
    and isn't left out of a hiring that needs it."""
    for name in QUANTITIES:
        permitted = most(name, expected[name], step)
        shown = reading.values[name] if reading and reading.is_there else None
        off = None if shown is None else abs(shown - expected[name])
        state = NOT_READ if off is None else EQUAL if not off else WITHIN if off <= permitted else OFF
        yield Value(name, expected[name], shown, permitted, state)
    for name in EXACT:
        shown = reading.values.get(name) if reading else None
        if shown is not None:
            yield Value(name, expected[name], shown, None, EQUAL if shown == expected[name] else OFF)
        elif name in needed and reading and reading.is_there:
            yield Value(name, expected[name], None, None, NOT_READ)


def verdict_of(values):
    """The verdict of the bench that the values come to."""
    judged = (value for value in values if value.name in QUANTITIES)
    off = next((value for value in judged if value.state not in (EQUAL, WITHIN)), None)
    return "PASS" if off is None else "MISSING" if off.state == NOT_READ else off.name.upper()


def compare_verdicts(bench, drive, expected, readings, hirings):
    """Compares what was found with the verdicts of the bench. What wasn't read stands there as it is expected, so that
    the rows behind it are judged too."""
    rows = [reading.values if reading and reading.is_there else wanted for wanted, reading in zip(expected, readings)]
    judged = bench.rows(drive, HEADER + "".join(plain_row(row, bench.decimals) for row in rows))
    for row, hiring in zip(judged, hirings, strict=True):
        wanted = verdict_of(hiring.values)
        if row["verdict"] != ("PASS" if wanted == "MISSING" else wanted):
            raise Differs(f"the bench says {row['verdict']} of hiring {hiring.number}, where {wanted} was found")


def too_many(number, reading):
    values = [Value(name, None, reading.values.get(name), None, TOO_MANY) for name in QUANTITIES]
    return Hiring(number, "", "", values, reading.remark)


def version_of():
    """Which program this is: a name and what it is, for each. Its wrapper says it; the program doesn't know the
    word."""
    done = subprocess.run([TOP / "bin/taxi", "version"], stdin=subprocess.DEVNULL, capture_output=True, check=False)
    version, *lines = done.stdout.decode().splitlines() or [""]
    said = dict(line.split(": ", 1) for line in lines if ": " in line)
    if done.returncode or not version.startswith("taxi ") or "program" not in said:
        raise Refused(125, f"{TOP / 'bin/taxi'} version doesn't say what judges")
    names = {"commit": "Its commit", "program": "Its digest", "kit": "Proved by"}
    return [("Program", version), *((text, said.get(name, "unknown")) for name, text in names.items())]


def judged(asked, content=None):
    """What is to be said of the readings of drives; without readings, what is expected of each hiring."""
    with Scratch("taxi") as taxi:
        kit = kit_in(taxi, asked, content is not None)
        bench, drives = Bench(taxi, asked), drives_of(asked.drive)
        expected = [bench.expected(drive) for drive in drives]
        count = sum(map(len, expected))
        name = str(getattr(asked, "readings", ""))
        readings = readings_in(HEADER.encode() if content is None else content, bench.decimals, name)
        in_place, more = in_order(readings, count, name)
        hirings = []
        for drive, wanted in zip(drives, expected):
            here = in_place[len(hirings) : len(hirings) + len(wanted)]
            found = hirings_of(bench, drive, wanted, here, len(hirings), kit)
            if content is not None:
                compare_verdicts(bench, drive, wanted, here, found)
            hirings += found
        hirings += [too_many(count + at, reading) for at, reading in enumerate(more, 1)]
        constant = int(re.search(r"^constant (\d+)$", bench.well("sealed"), re.MULTILINE)[1])
        found = finenesses(bench.rates, constant)
        compare_speeds(found, bench.crossovers)
        return judged_of(bench, hirings, drives, found, readings, kit)._replace(expected=sum(expected, []))


def hirings_of(bench, drive, expected, readings, before, kit):
    """The hirings of a drive, numbered behind those of the drives before it."""
    needs, was_driven = needs_of(drive.text, expected), not kit or was_driven_as_made(bench, kit, drive, expected)
    return [
        Hiring(
            before + at, drive.name, wanted["receipt"], list(values_of(wanted, reading, bench.step, needed)),
            reading.remark if isinstance(reading, Reading) else "", was_driven,
        )
        for at, (wanted, reading, needed) in enumerate(zip(expected, readings, needs), 1)
    ]


def was_driven_as_made(bench, kit, drive, expected):
    """Whether a drive is that of its kit, or was recorded while it was driven so."""
    made = kit.texts.get(drive.name)  # None where the kit wasn't made again
    if made in (None, drive.text):
        return True
    return keys_in(drive.text) == keys_in(made) and is_near(
        bench.expected(Drive(drive.name, made)), expected, bench.step
    )


def judged_of(bench, hirings, drives, crossovers, readings, kit):
    sealed = bench.well("sealed")
    lines = [line.removeprefix("# ").split(" ", 1) for line in sealed.splitlines()]
    return Judged(
        hirings, drives, dict(lines), [line[1] for line in lines if line[0] == "offset"], crossovers, bench.rates,
        bench.decimals, bench.well("form", "tariff"), readings, version_of(), kit,
    )
