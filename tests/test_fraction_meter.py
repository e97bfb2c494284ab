"""The reference meter against the proved program: what `run` shows and prints of a drive, and the time that `explain`
finds. A tariff with every kind of condition, both modes, and drives of all kinds of lines; those that hypothesis draws
are made smaller where they differ."""

import pathlib

import pytest
from heglorwy.meter import tenths
from heglorwy.officer.showing import shown_in
from heglorwy.tariff import read_tariff
from hypothesis import HealthCheck, given, settings
from hypothesis import strategies as some
from support.drives import BORDERS, TARIFFS, drive_of, random_drive, start_of, text_of
from support.fraction_meter import meter_of

PARAMS = "taxi AGREE\nconstant {}\nmode {}\nhold 60\nsecured 2025-12-01\n"
PARAMS += "offset 946684800 3600\noffset 1774746000 7200\n"
SETTINGS = settings(max_examples=40, deadline=None, derandomize=True, suppress_health_check=list(HealthCheck))


def shown_by_program(scratch, tariff, params, drive):
    """What the program shows of each hiring, and how long each was."""
    texts = {"tariff": tariff.encode(), "params": params.encode(), "drive": drive}
    pathlib.Path(scratch.folder.name, "taxi.store").unlink(missing_ok=True)
    assert scratch.call("seal", "tariff", "params", **texts)[1] == 0
    printed, status = scratch.call("run", "tariff", "drive")
    explained, _ = scratch.call("explain", "tariff", "drive", "params")
    times = [tenths(line.split(" ")[3]) for line in explained.decode().splitlines() if line.startswith("DISTANCE ")]
    assert status == 0
    return [(*one, time) for one, time in zip(shown_in(printed.decode()), times, strict=True)]


def compare(scratch, tariff, params, drive):
    """Compares both meters on a drive; how many hirings it has."""
    parsed = read_tariff(scratch, tariff.encode())
    readings = meter_of(parsed, params).drive(drive).readings()
    found = [
        (one.kind, one.fare, one.distance, one.supplements, one.position, one.zone, one.refused, one.time)
        for one in readings
    ]
    assert found == shown_by_program(scratch, tariff, params, drive)
    return len(found)


@pytest.mark.parametrize("mode", ["single", "double"])
@pytest.mark.parametrize("number", range(len(TARIFFS)))
def test_hundred_drives(scratch, number, mode):
    """Some of the hundred drives, one behind the other."""
    for seed in range(number, 100, 19):
        drive = text_of(drive_of(seed, 4, start_of(seed))).encode()
        assert compare(scratch, TARIFFS[number], PARAMS.format(10_000, mode), drive) > 0


@pytest.mark.parametrize("constant", [500, 997, 10_000, 200_000])
def test_random_drives(scratch, draw, constant):
    """Drives of lines of all kinds: losses of supply, clocks that go back, wrong keys, pulses that are too fast."""
    for number in range(10):
        mode = draw.choice(["single", "double"])
        compare(scratch, TARIFFS[number % len(TARIFFS)], PARAMS.format(constant, mode), random_drive(draw))


KEYS = ["H", "S", "C", "P 1", "P 2", "P 3", "Z 1", "Z 2", "E 1", "E 2", "E 3"]
LINES = some.one_of(
    some.tuples(some.just("I"), some.integers(0, 2100), some.integers(1, 400)),
    some.tuples(some.just("C"), some.integers(-60, 4000)), some.tuples(some.just("K"), some.sampled_from(KEYS)),
    some.tuples(some.just("P"), some.integers(1, 2100)), some.tuples(some.just("D")),
    some.tuples(some.just("U"), some.integers(0, 62)),
)


def text_at(begins, lines):
    """The lines of a drive, in which clocks are told by how much later they are."""
    clock, text = begins, [f"U {begins}"]
    for word, *rest in lines:
        if word in "CU":
            clock += rest[0]
            rest = [clock]
        text += [" ".join(map(str, [word, *rest]))] + ["I 0 1"] * (word == "K")
    return "".join(f"{line}\n" for line in text).encode()


@SETTINGS
@given(
    some.sampled_from(BORDERS), some.lists(LINES, min_size=5, max_size=60), some.sampled_from(TARIFFS), some.booleans()
)
def test_drawn_drives(scratch, begins, lines, tariff, is_single):
    """Drives of any lines, which hypothesis draws."""
    compare(scratch, tariff, PARAMS.format(10_000, "single" if is_single else "double"), text_at(begins, lines))
