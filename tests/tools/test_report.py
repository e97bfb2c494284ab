"""`tools/verify form` and `report` on a kit: what wasn't read doesn't pass, a kit that isn't that of its list is
refused, drives that were recorded otherwise than the list says don't pass, and the report says what judged. The kit is
made once; each report makes it again, which is done once here too."""

import argparse
import pathlib
import shutil

import pytest
from heglorwy.officer import kit_folder, papers
from heglorwy.officer.kit import made, write
from heglorwy.officer.readings import COLUMNS
from heglorwy.program import Refused
from heglorwy.tariff import read_tariff
from support import built
from support.meter_readings import shown_by, table_of

SEED = 3
TARIFF = """step 0.10 ahead
zones 2
supplement 1 1.00 max 2
initial 4.80 covers 0.30 when zone 2
initial 3.90 covers 0.30
rate 0.10 per 10.0 m, 0.10 per 1.0 s when zone 2
rate 0.10 per 14.0 m, 0.10 per 1.4 s
"""
PARAMS = built.PARAMS.read_text()
ALL = COLUMNS[:-1]


def words(folder, **more):
    usual = {
        "html": False, "expected": False, "table": False, "percent": 10, "date": None, "store": None, "constant": None
    }
    return argparse.Namespace(tariff=folder / "tariff", drive=folder / "kit", params=folder / "params",
                              readings=folder / "readings", **{**usual, **more})


@pytest.fixture(scope="module", name="first")
def _first(scratch, tmp_path_factory):
    """A kit in a folder, and the kit itself."""
    folder = tmp_path_factory.mktemp("officer")
    (folder / "tariff").write_text(TARIFF)
    (folder / "params").write_text(PARAMS)
    asked = words(folder, seed=SEED, fastest=100, longest=60, bench=False, days=False, expiry=False)
    kit = made(scratch, asked)
    write(folder / "kit", kit)
    return folder, kit


@pytest.fixture(name="folder")
def _folder(first, tmp_path, monkeypatch):
    """A copy of it, of which a report makes the kit again at once."""
    folder, kit = first
    monkeypatch.setattr(kit_folder, "made", lambda taxi, asked: kit)
    shutil.copytree(folder, tmp_path / "officer")
    return tmp_path / "officer"


@pytest.fixture(name="right")
def _right(scratch, folder):
    """What the right meter shows of each hiring."""
    drives = [path.read_bytes() for path in sorted((folder / "kit").glob("*.drive"))]
    return shown_by(read_tariff(scratch, TARIFF.encode()), PARAMS, drives)


def reported(folder, readings, columns=ALL):
    """The report on readings, line by line, and its status."""
    (folder / "readings").write_text(table_of(readings, 2, columns), newline="")
    text, status = papers.report(words(folder))
    return text.splitlines(), status


def test_right_meter(folder, right):
    """Every column of the right meter passes, and the report says for what the readings speak, and what judged."""
    lines, status = reported(folder, right)
    assert (status, lines[2]) == (
        0, f"PASSED: {len(right)} of {len(right)} readings, {len(right)} of them equal to what was expected"
    )
    said = dict(line.strip().split(":", 1) for line in lines if ": " in line)
    assert said["Program"].split()[0] == "taxi" and said["Its digest"].split()[0] == "SHA-256"
    assert {"Its commit", "Proved by"} <= set(said) and not any("BAD WORDS" in line for line in lines)
    assert f"--seed {SEED} " in said["Kit"]
    assert any("charges time while it is stopped" in line and line.endswith(" verified") for line in lines)
    assert any("left out: position keys amid the trip" in line and line.endswith("not verified") for line in lines)


def test_what_was_not_read(folder, right):
    """Three columns don't pass, where a hiring is there for another one."""
    lines, status = reported(folder, right, ["fare", "distance", "time"])
    assert status == 11 and lines[2].startswith("NOT PASSED: ")
    for said in (
        "supplements weren't read in ", "zone wasn't read in ", "refused wasn't read in ", "receipt wasn't read in "
    ):
        assert said in lines[2]
    lines, status = reported(folder, right, [name for name in ALL if name != "supplements"])
    assert status == 11 and "zone wasn't" not in lines[2] and "supplements weren't read in " in lines[2]


def test_missing_rows(folder, right):
    """What a hiring would have told isn't verified."""
    lines, status = reported(folder, right[:-1])
    assert status == 11 and lines[2] == f"NOT PASSED: 1 of {len(right)} readings"
    assert any(line.endswith("NOT READ") for line in lines)


@pytest.mark.parametrize("dear", ["supplement 1 5.00 max 2", "supplement 1 1.00 max 9"])
def test_other_supplements(scratch, folder, dear):
    """A supplement of another amount, and one that may be taken too often."""
    wrong = read_tariff(scratch, TARIFF.replace("supplement 1 1.00 max 2", dear).encode())
    drives = [path.read_bytes() for path in sorted((folder / "kit").glob("*.drive"))]
    lines, status = reported(folder, shown_by(wrong, PARAMS, drives))
    assert status == 11 and any("supplements" in line and "nothing else is permitted" in line for line in lines)


def test_other_list(folder, right):
    """A list of another seed, a drive that is gone and one too many."""
    text = (folder / "kit/list.txt").read_text()
    drive = next((folder / "kit").glob("*.drive"))
    kept = drive.read_bytes()
    for spoil, mend in (
        (lambda: (folder / "kit/list.txt").write_text(text.replace("Stop", "Hire", 1)), lambda: None),
        (lambda: (folder / "kit/list.txt").write_text("no list\n"), lambda: (folder / "kit/list.txt").write_text(text)),
        (drive.unlink, lambda: drive.write_bytes(kept)),
        (lambda: (folder / "kit/z.drive").write_bytes(kept), (folder / "kit/z.drive").unlink),
    ):
        spoil()
        with pytest.raises(Refused) as why:
            reported(folder, right)
        assert why.value.status == 2
        mend()


def test_recorded_drives(scratch, folder, right):
    """A drive that was recorded a little otherwise passes; one that leaves out what it is for doesn't."""
    path = next((folder / "kit").glob("*_stopped.drive"))
    for old, new, is_as_listed in ((b"I 0 1\n", b"I 0 3\n", True), (b"K S\nI 0 1\n", b"I 0 1\n", False)):
        text = path.read_bytes()
        path.write_bytes(text.replace(old, new, 1))
        drives = [each.read_bytes() for each in sorted((folder / "kit").glob("*.drive"))]
        shown = shown_by(read_tariff(scratch, TARIFF.encode()), PARAMS, drives)
        lines, status = reported(folder, shown)
        assert (status, any("wasn't driven as the list says" in line for line in lines)) == (
            0 if is_as_listed else 11, not is_as_listed
        )
        path.write_bytes(text)


def test_form(folder, right):
    """The form has all columns and the seed, and doesn't show what is expected."""
    text, _ = papers.form(words(folder))
    readings = text.split("\nReadings\n")[1].split("\nCross")[0]
    assert f"--seed {SEED} " in text and readings.split("\n")[0].split()[-6:] == COLUMNS[-6:]
    assert not any(f"{one.fare / 100:.2f}" in readings for one in right)
    table, _ = papers.form(words(folder, table=True))
    assert table.splitlines()[0] == ",".join(COLUMNS) and len(table.splitlines()) == len(right) + 1


def test_drives_without_a_list(scratch, folder, right):
    """Without a list the readings speak for the drives alone."""
    pathlib.Path(folder, "kit/list.txt").unlink()
    lines, status = reported(folder, right)
    assert status == 0 and any("without a kit nothing is said" in line for line in lines)
    assert reported(folder, right, ["fare", "distance", "time"])[1] == 11
