"""Wrong meters drive a kit, and their readings are judged: by `taxi bench` under the right tariff, and exactly by the
columns that it doesn't have."""

import csv
import pathlib
import re
import tempfile
from typing import NamedTuple

from heglorwy.program import called

NOT_PERMITTED, WITHIN, REFUSAL, NOTHING = "not permitted", "within what is permitted", "by a refusal", "nothing"


class Shown(NamedTuple):
    """What a meter shows of a hiring."""

    fare: str
    distance: str
    time: str
    kind: str
    supplements: str
    position: str


class Meters:
    """Meters of any tariff and parameters, that drive the drives of a kit: the short ones first, and the others only
    where these show nothing that isn't permitted."""

    def __init__(self, tariff, params, folder):
        self.place = pathlib.Path(tempfile.mkdtemp(dir=folder))
        self.params = params
        self.form, status = self.call("form", tariff=tariff)
        assert status == 0, self.form
        self.put("right", self.form)
        self.put("params", params)
        assert self.taxi("seal", "right", "params")[1] == 0
        self.drives = [text for text in parts_of(folder / "kit") if text]
        self.right = [self.drive(text, self.form) for text in self.drives]
        self.refusals = {}

    def put(self, name, text):
        (self.place / name).write_text(text)

    def taxi(self, *words, folder=""):
        printed, status = called("taxi", self.place / folder, *words)
        return printed.decode(), status

    def call(self, command, *more, **texts):
        """What a command prints of texts, and its status."""
        for name, text in texts.items():
            self.put(name, text)
        return self.taxi(command, *texts, *more)

    def drive(self, text, tariff, params=None):
        """What a meter shows of each hiring of a drive; None where its tariff isn't sound."""
        texts = {"wrong": tariff, "drive": text, "others": params or self.params}
        printed, status = self.call("explain", **texts)
        if status == 2:
            return None
        assert status == 0, (status, printed[-200:])
        return [shown_in(part) for part in printed.split("END\n")[:-1]]

    def verdicts(self, text, shown):
        """The verdicts of the bench on what a meter showed of a drive."""
        rows = "".join(f"{hiring.fare},{hiring.distance},{hiring.time}\n" for hiring in shown)
        self.put("right", self.form)
        self.put("drive", text)
        self.put("readings", f"fare,distance,time\n{rows}")
        printed, status = self.taxi("bench", "right", "drive", "readings")
        assert status in (0, 11), (status, printed)
        return [row["verdict"] for row in csv.DictReader(printed[printed.index("hiring,") :].splitlines())]

    def refused(self, text, tariff, params):
        """What a meter shows last of each hiring and how often it refuses, in a store of its own."""
        store = pathlib.Path(tempfile.mkdtemp(dir=self.place))
        for name, content in (("tariff", tariff), ("params", params), ("drive", text)):
            (store / name).write_text(content)
        self.taxi("seal", "tariff", "params", folder=store.name)
        printed, _ = self.taxi("run", "tariff", "drive", folder=store.name)
        parts = printed.split("\nEND\n")
        return [(re.findall(r"T\d Z\d", part)[-1:], len(re.findall("^REFUSED", part, re.M))) for part in parts]

    def judged(self, tariff, params=None):
        """What is found of a wrong meter; None where its tariff isn't sound."""
        found = NOTHING
        for at in range(len(self.drives)):
            verdict = self.judged_by(at, tariff, params)
            if verdict in (None, NOT_PERMITTED):
                return verdict
            found = verdict if RANKS.index(verdict) > RANKS.index(found) else found
        return found

    def judged_by(self, at, tariff, params):
        """What is found of a wrong meter by one of the drives."""
        text, right = self.drives[at], self.right[at]
        shown = self.drive(text, tariff, params)
        if shown is None:
            return None
        if len(shown) != len(right) or set(self.verdicts(text, shown)) != {"PASS"}:
            return NOT_PERMITTED
        if [(one.kind, one.supplements) for one in shown] != [(one.kind, one.supplements) for one in right]:
            return NOT_PERMITTED
        if [one[:3] for one in shown] != [one[:3] for one in right]:
            return WITHIN
        if [one.position for one in shown] != [one.position for one in right]:
            return REFUSAL
        if at not in self.refusals:
            self.refusals[at] = self.refused(text, self.form, self.params)
        return REFUSAL if self.refused(text, tariff, params or self.params) != self.refusals[at] else NOTHING

    def is_same(self, tariff):
        """Whether a tariff is the right one, written otherwise."""
        return self.call("compare", str(self.constant), right=self.form, wrong=tariff)[0] == "SAME\n"

    @property
    def constant(self):
        return int(re.search(r"^constant (\d+)", self.params, re.M)[1])


RANKS = [NOTHING, REFUSAL, WITHIN, NOT_PERMITTED]
LONG = 2000  # intervals of a drive that is long


def intervals(text):
    return sum(int(found[1]) for found in re.finditer(r"^I \d+ (\d+)$", text, re.M))


def parts_of(folder):
    """The short drives of a folder one behind the other, and the long ones, with a loss of supply between them."""
    texts = [path.read_text() for path in sorted(folder.glob("*.drive"))]
    return ["D\n".join(text for text in texts if (intervals(text) > LONG) == are_long) for are_long in (False, True)]


def shown_in(part):
    said = {line.split()[0]: line.split()[1:] for line in part.splitlines()}
    distance, _, time, _ = said["DISTANCE"]
    return Shown(said["FARE"][0], distance, time, said["HIRING"][1], said["SUPPLEMENTS"][0], said["POSITION"][0])
