"""Wrong meters drive the kit of the city, of the night and of the port, with every column read. Those that change the
fare of an ordinary trip are told; those that lie on a few dates, minutes or speeds may be; the others pass, for the
reason that the tables of faults/ say. Right meters that are a little beside pass."""

import re
from fractions import Fraction

import pytest
from faults import ORDINARY, SMALL, UNSEEN, wrong
from faults.known import KNOWN, scaled
from faults.made import MADE
from heglorwy.tariff import read_tariff
from support import built
from support.drives import ordinary_trip
from trials import FAULTS, Drives, cheat, made, meter_part_of

TARIFFS = {
    "city": built.CITY, "night": built.TOP / "examples/night.tariff",
    "port": built.TOP / "tests/tools/officer/tariffs/port.tariff",
}
PARAMS = built.PARAMS.read_text()
SEEDS = [1, 2, 3, 4, 5]
# Left to the hirings for the tariff, which test_whole_kits has drive too.
BY_TARIFF = {
    "a supplement is taken once more than the tariff says", "a supplement that isn't in the tariff is taken for 20.00",
    "there are nine zones", "standing is charged twice from the fifth minute on",
    "half of an `and` is lost in the rates",
    "the hire fee is +2 steps; the cover is 2 steps more", "the trip goes on behind a minute more than the hold time",
    "standing is free from the tenth minute on",
}
BESIDE = [
    wrong("0.05 % more pulses", heard=scaled(Fraction(10_005, 10_000))),
    wrong("0.05 % less pulses", heard=scaled(Fraction(9995, 10_000))),
    wrong("the clock is 0.02 % slow", tick=Fraction(9998, 10_000)),
    wrong("the clock is a second fast", read_clock=lambda my, was, second: was(second + 1),
          power_up=lambda my, was, second: was(second + 1)),
    wrong("the clock is a second slow", read_clock=lambda my, was, second: was(second - 1),
          power_up=lambda my, was, second: was(second - 1)),
]


@pytest.fixture(scope="module", name="parsed")
def _parsed(scratch):
    return {name: read_tariff(scratch, path.read_bytes()) for name, path in TARIFFS.items()}


@pytest.fixture(scope="module", name="parts")
def _parts(parsed):
    """The hirings for the meter of seeds, made once."""
    known = {}

    def part(tariff, seed):
        if (tariff, seed) not in known:
            known[tariff, seed] = Drives.of_seed(parsed[tariff], PARAMS, seed)
        return known[tariff, seed]

    return part


def test_how_many():
    """There are as many as the pages say, each by a name of its own."""
    assert (len(KNOWN), len(MADE), len({fault.name for fault in FAULTS})) == (57, 109, 166)
    assert all(fault.reason or fault.weight == ORDINARY for fault in FAULTS)


@pytest.mark.parametrize("fault", [
    fault for fault in FAULTS if fault.weight == ORDINARY and fault.name not in BY_TARIFF
],
                         ids=lambda fault: fault.name)
def test_told_by_the_part_for_the_meter(parts, fault):
    assert parts(fault.tariff, SEEDS[0]).told_by(fault.meter())


@pytest.mark.parametrize("fault", BESIDE, ids=lambda fault: fault.name)
def test_right_meters_a_little_beside(parts, fault):
    assert parts("city", SEEDS[0]).told_by(fault.meter()) is None


def test_who_knows_a_kit(parts):
    """A meter that is right on the dates of one seed alone passes that, and no other."""
    one, other = parts("city", SEEDS[0]), parts("city", SEEDS[1])
    assert one.told_by(cheat(one)) is None and other.told_by(cheat(one))


def test_a_seed_makes_the_same_kit(parsed, parts):
    """And another seed another one."""
    again = meter_part_of(parsed["city"], PARAMS, SEEDS[0])
    assert [drive.name for drive in again.drives] == list(parts("city", SEEDS[0]).texts)
    assert Drives.of_seed(parsed["city"], PARAMS, SEEDS[0]).texts == parts("city", SEEDS[0]).texts
    assert parts("city", SEEDS[0]).texts.keys() == parts("city", SEEDS[1]).texts.keys()
    assert not any(text == parts("city", SEEDS[1]).texts[name] for name, text in parts("city", SEEDS[0]).texts.items())


@pytest.mark.long
@pytest.mark.parametrize("seed", SEEDS)
@pytest.mark.parametrize("tariff", TARIFFS)
def test_whole_kits(parsed, tmp_path, tariff, seed):
    """The kit that the program makes: the reference meter passes it, and no ordinary fault."""
    head = made(tmp_path / "kit", TARIFFS[tariff], built.PARAMS, seed)
    drives = Drives.of_folder(tmp_path / "kit", parsed[tariff], PARAMS)
    faults = [fault for fault in FAULTS if fault.tariff == tariff]
    found = {fault.name: drives.told_by(fault.meter()) for fault in faults}
    print(f"{tariff}, seed {seed}: {head[0]}; {sum(map(bool, found.values()))} of {len(found)} told")
    assert not [fault.name for fault in faults if fault.weight == ORDINARY and not found[fault.name]]
    assert not [fault.name for fault in faults if fault.weight == UNSEEN and found[fault.name]]
    if tariff == "city":
        hours = [int(hour) + int(minute) / 60 for hour, minute in re.findall(r"(\d+) h (\d+) min", "".join(head[:3]))]
        assert hours[0] <= 5.5 and hours[1] <= 3


@pytest.mark.long
@pytest.mark.parametrize("fault", [fault for fault in FAULTS if fault.weight == SMALL], ids=lambda fault: fault.name)
def test_small_faults(parsed, fault):
    """No fare of a hundred ordinary trips is off by more than is permitted."""
    trips = Drives({str(number): ordinary_trip(number) for number in range(100)}, parsed["city"], PARAMS)
    assert not [name for name in trips.texts if trips.is_fare_told(fault.meter(), name)]
