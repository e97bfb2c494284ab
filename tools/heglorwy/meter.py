"""A meter with its parameters, as the proved program reads them, and what it says of a drive."""

import datetime
from typing import NamedTuple

from heglorwy.given import params_of
from heglorwy.program import Differs, Refused, read

FIRST, LAST = 946_684_800, 7_258_118_399  # the seconds that a clock may read


class Meter(NamedTuple):
    tariff: bytes
    params: bytes
    constant: int
    mode: str  # single or double
    hold: int
    offsets: list  # of a second and the offset from it on
    taxi: str
    secured: str

    def offset_at(self, second):
        return [offset for begins, offset in self.offsets if begins <= second][-1]

    def second_at(self, date, minute):
        """The second at which local time is a minute of a date; None where there is none."""
        local = int(datetime.datetime.combine(date, datetime.time(), datetime.timezone.utc).timestamp()) + 60 * minute
        seconds = [local - offset for _, offset in self.offsets]
        return next(
            (second for second in seconds if FIRST <= second <= LAST and second + self.offset_at(second) == local), None
        )


def sealed_meter(tariff, params, sealed):
    """The meter of a tariff and parameters of which `sealed` says this."""
    lines = [line.split(" ") for line in sealed.decode().splitlines()]
    said = {words[0]: words[1] for words in lines}
    offsets = [(int(words[1]), int(words[2])) for words in lines if words[0] == "offset"]
    numbers = int(said["constant"]), said["mode"], int(said["hold"])
    return Meter(tariff, params, *numbers, offsets, said["taxi"], said["secured"])


def meter_of(taxi, asked, params=None):
    """The meter that is sealed with the tariff and the parameters that were asked for, in the program's folder; or with
    these parameters."""
    tariff = read(asked.tariff)
    params = params_of(asked) if params is None else params
    taxi.well("seal", "tariff", "params", tariff=tariff, params=params, said="the store can't be sealed")
    return sealed_meter(tariff, params, taxi.call("sealed")[0])


def asked_of(taxi, meter, command, drive):
    """The lines that a command prints of a drive under the meter's tariff."""
    last = {"fare": str(meter.constant), "explain": "params"}.get(command)
    printed, status = taxi.call(command, "tariff", "drive", *([last] if last else []), drive=drive)
    lines = printed.decode().splitlines()
    if status:
        raise Refused(2 if status == 3 else status, f"{command} ends with {status}: {lines[-1] if lines else ''}")
    return lines


def hirings_of(taxi, meter, drive):
    """What `explain` says of each hiring of a drive: its lines, as lists of words."""
    hirings = []
    for line in asked_of(taxi, meter, "explain", drive):
        words = line.split(" ")
        if words[0] == "HIRING":
            hirings.append([])
        if not hirings:
            raise Differs(f"explain begins with {line}")
        hirings[-1].append(words)
    return hirings


def first_in(hiring, name):
    """The words of the first line of a hiring that begins so."""
    return next((words[1:] for words in hiring if words[0] == name), None)


def tenths(seconds):
    """Ticks from seconds as they are printed."""
    return int(seconds.replace(".", ""))


def millimetres(pulses, constant):
    return 1_000_000 * pulses // constant
