"""What the proved program says of tariffs and hirings."""

import datetime
import re
from typing import NamedTuple

from heglorwy.fineness import compare_weights, finenesses
from heglorwy.meter import meter_of, millimetres, tenths
from heglorwy.officer import wording
from heglorwy.officer.hirings import LONGEST_TRIP, Context, drive_of
from heglorwy.officer.sealed import params_for
from heglorwy.officer.showing import shown_in, units
from heglorwy.program import Differs, Refused, read
from heglorwy.tables import tables_of
from heglorwy.tariff import read_tariff
from heglorwy.tariff_parts import of_kind

FIRST_DIFFERENCE = re.compile(
    r"DIFFERENT (INITIAL|MINIMUM|RATE) T(\d) Z(\d) \w+ (\S+) (\d+):(\d+)(?: (\d+) t (\d+) p)?$", re.MULTILINE
)


class Told(NamedTuple):
    """What `explain` says of a hiring: money in its smallest units, charges in units of charge, of which `unit` make
    one."""

    kind: str
    fare: int
    distance: int  # millimetres
    time: int  # ticks
    charged: int
    unit: int
    cover: int
    groups: tuple  # of a rate line, the way in which it charged, millimetres and ticks


def told_of(lines):
    """What `explain` says of a hiring, from its lines."""
    words = [line.split(" ") for line in lines]
    said = {line[0]: line for line in words}
    return Told(
        kind=said["HIRING"][2], fare=units(said["FARE"][1]), distance=units(said["DISTANCE"][1]),
        time=tenths(said["DISTANCE"][3]), charged=int(said["CHARGED"][2]), unit=int(said["CHARGED"][4]),
        cover=units(said["FEE"][3]),
        groups=tuple((int(line[1]), line[2], units(line[3]), tenths(line[5])) for line in words if line[0] == "RATE"),
    )


def supply_of(hiring):
    """Orders hirings by how long the supply is lost. One that is aborted comes last: the keys that are refused behind
    it would be counted to the next one, which has to show the same whatever it stands behind."""
    return -1 if hiring.lost is None else hiring.lost


class Program:
    """The program, asked about hirings of a meter; its tariff is read by the tools too, and both have to agree."""

    def __init__(self, taxi, asked):
        self.taxi, self.meter = taxi, meter_of(taxi, asked, params_for(asked, read(asked.tariff)))
        self.tariff = read_tariff(taxi, self.meter.tariff)
        found = finenesses(of_kind(self.tariff.lines, "rate"), self.meter.constant)
        compare_weights(found, tables_of(taxi, self.meter.tariff, self.meter.constant).rates)
        self.right = wording.form(self.tariff.lines, self.tariff.decimals)
        printed, status = taxi.call("form", "tariff")
        if status or printed != self.right:
            raise Differs("the program prints another form of the tariff than was found")
        self.sealed = None  # the tariff and the parameters of the store
        self.shown_right, self.told_right = {}, {}

    def form(self, lines):
        return wording.form(lines, self.tariff.decimals)

    def compare(self, right, wrong):
        """Where two texts differ first: a context, `SAME`, other words, or None where the second isn't sound."""
        texts = {"right": right, "wrong": wrong}
        printed, status = self.taxi.call("compare", *texts, str(self.meter.constant), **texts)
        text = printed.decode()
        if status == 0:
            return "SAME"
        if status != 11:
            return None
        found = FIRST_DIFFERENCE.match(text)
        if not found:
            return text.splitlines()[0]
        kind, position, zone, date, hours, minutes, ticks, pulses = found.groups()
        place = int(position), int(zone), datetime.date.fromisoformat(date), 60 * int(hours) + int(minutes)
        return Context(kind, *place, int(ticks or 0), int(pulses or 0))

    def well(self, *words, **texts):
        """What a command prints, which has to end with 0."""
        printed, status = self.taxi.call(*words, **texts)
        if status:
            raise Refused(status, f"{words[0]} ends with {status}: {printed.decode().splitlines()[-1:]}")
        return printed.decode()

    def shown(self, text, hirings, params=None):
        """What a meter with a tariff shows of hirings, or None where the tariff isn't sound."""
        if not hirings:
            return []
        params = params or self.meter.params
        if self.sealed != (text, params):
            _, status = self.taxi.call("seal", "asked", "others", asked=text, others=params)
            self.sealed = (text, params) if status == 0 else None
            if status:
                return None
        order = sorted(range(len(hirings)), key=lambda at: supply_of(hirings[at]))
        found = shown_in(self.well("run", "asked", "hirings", hirings=drive_of([hirings[at] for at in order])))
        if len(found) != len(hirings):
            raise Differs(f"run prints {len(found)} receipts, where {len(hirings)} were driven")
        return [one for _, one in sorted(zip(order, found))]

    def show(self, hirings):
        """What the right meter shows of hirings."""
        new = [hiring for hiring in dict.fromkeys(hirings) if hiring not in self.shown_right]
        self.shown_right |= zip(new, self.shown(self.meter.tariff, new))
        return [self.shown_right[hiring] for hiring in hirings]

    def explained(self, text, hirings):
        """How the fares of hirings come about under a sound tariff."""
        return self.explained_drive(drive_of(hirings), text) if hirings else []

    def explained_drive(self, drive, text=None):
        """How the fares of a drive come about, under a sound tariff or the right one."""
        texts = {"asked": text or self.meter.tariff, "hirings": drive, "params": self.meter.params}
        printed = self.well("explain", *texts, **texts)
        self.sealed = None  # the file of the tariff is another one now
        return [told_of(part.splitlines()) for part in printed.split("END\n")[:-1]]

    def explain(self, hirings):
        """How the fares of hirings come about; each has to be driven as it was meant, and to show the same fare."""
        new = [hiring for hiring in dict.fromkeys(hirings) if hiring not in self.told_right]
        shown = self.show(new)
        for hiring, told, one in zip(new, self.explained(self.meter.tariff, new), shown, strict=True):
            if (told.kind, told.fare, told.distance) != (one.kind, one.fare, one.distance):
                raise Differs(f"explain finds {told[:3]}, where run prints {one[:3]}")
            self.told_right[hiring] = self.compared(hiring, told)
        return [self.told_right[hiring] for hiring in hirings]

    def compared(self, hiring, told):
        """What is told of a hiring, which has to be as long and as far as it was made, and to end as it should."""
        if hiring.lost is None and hiring.driven < LONGEST_TRIP:
            wanted = "CLOSED", millimetres(hiring.pulses, self.meter.constant), hiring.ticks
            if (told.kind, told.distance, told.time) != wanted:
                raise Differs(f"explain finds {(told.kind, told.distance, told.time)}, where {wanted} was driven")
        return told
