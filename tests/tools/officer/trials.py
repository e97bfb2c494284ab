"""Wrong meters drive a kit: their readings, with every column filled, are judged as `tools/verify report` judges
them."""

import functools
import pathlib
import re
import subprocess
from typing import NamedTuple

from faults import Watched
from faults.known import KNOWN, knows
from faults.made import MADE
from heglorwy.meter import Meter
from heglorwy.officer.judging import EQUAL, WITHIN, values_of
from heglorwy.officer.kit import Asked
from heglorwy.officer.levels import most
from heglorwy.officer.meter_part import meter_part
from heglorwy.officer.readings import Reading
from heglorwy.officer.ride import text_of
from heglorwy.tariff import Tariff
from support.fraction_meter import meter_of

TOP = pathlib.Path(__file__).resolve().parents[3]
FAULTS = [*KNOWN, *MADE]


def expected_of(closed):
    """What was read of a hiring, by the columns of a table of readings."""
    values = closed._asdict()
    return {"receipt": values.pop("kind"), **values}


class StandIn(NamedTuple):
    """The reference meter in the place of the program, for the hirings for the meter: seconds where that takes
    minutes."""

    meter: Meter
    tariff: Tariff
    params: str

    def explained_drive(self, drive):
        return meter_of(self.tariff, self.params).drive(drive).readings()


def stand_in(tariff, params):
    meter = meter_of(tariff, params)
    secured = re.search(r"(?m)^secured (\S+)$", params)[1]
    numbers = meter.constant, meter.mode, meter.hold, meter.offsets
    return StandIn(Meter(b"", params.encode(), *numbers, "", secured), tariff, params)


def meter_part_of(tariff, params, seed, fastest=100, is_on_bench=False):
    """The hirings for the meter of a seed."""
    return meter_part(stand_in(tariff, params), Asked(fastest, 72_000, is_on_bench, False, False, seed))


class Drives:
    """The drives of a kit, and what the right meter shows of them."""

    def __init__(self, texts, tariff, params):
        self.texts, self.tariff, self.params = texts, tariff, params
        self.step = next(line.parts["amount"] for line in tariff.lines if line.kind == "step")
        self.right = {name: self.shown(Watched, name) for name in self.texts}

    @classmethod
    def of_folder(cls, folder, tariff, params):
        return cls(
            {path.name: path.read_bytes() for path in sorted(pathlib.Path(folder).glob("*.drive"))}, tariff, params
        )

    @classmethod
    def of_seed(cls, tariff, params, seed, **how):
        """Those for the meter."""
        meter, part = stand_in(tariff, params).meter, meter_part_of(tariff, params, seed, **how)
        return cls({drive.name: text_of(meter, drive.acts) for drive in part.drives}, tariff, params)

    def shown(self, kind, name):
        return meter_of(self.tariff, self.params, kind).drive(self.texts[name]).readings()

    def is_told(self, kind, name):
        """Whether a drive tells a meter from the right one."""
        right, shown = self.right[name], self.shown(kind, name)
        if len(right) != len(shown):
            return True
        for one, other in zip(right, shown):
            reading = Reading(0, expected_of(other), "")
            if any(value.state not in (EQUAL, WITHIN) for value in values_of(expected_of(one), reading, self.step)):
                return True
        return False

    def is_fare_told(self, kind, name):
        """Whether a fare of a drive is off by more than is permitted."""
        pairs = zip(self.right[name], self.shown(kind, name), strict=True)
        return any(abs(one.fare - other.fare) > most("fare", one.fare, self.step) for one, other in pairs)

    def told_by(self, kind):
        """The first drive that tells a meter; None where it passes. Those for the meter are tried first."""
        return next((name for name in reversed(self.texts) if self.is_told(kind, name)), None)

    @functools.cached_property
    def dates(self):
        """The dates on which something is hired."""
        meter, found = meter_of(self.tariff, self.params), set()
        for text in self.texts.values():
            for line in text.decode().splitlines():
                if line[0] in "UC":
                    found.add(meter.local(int(line[2:])).date())
        return frozenset(found)


def made(folder, tariff, params, seed, *words):
    """Makes a kit in a folder; the first line of its list."""
    constant = next(
        line.split()[1] for line in pathlib.Path(params).read_text().splitlines() if line.startswith("constant")
    )
    call = [TOP / "tools/verify", "drives", tariff, constant, folder, "--params", params, "--seed", str(seed), *words]
    return subprocess.run(call, check=True, capture_output=True, text=True).stdout.splitlines()


def cheat(drives):
    """A meter that is right on the dates of a kit alone."""
    return knows(drives.dates).meter()

