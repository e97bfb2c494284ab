"""What tools/hints says of sound tariffs whose figures are perhaps misplaced, of parameters, and of files that are no
text; and that it says nothing of what is meant so, as each sound tariff of the pages is."""

import datetime
import pathlib
import re
import subprocess
import sys
import zipfile

import pytest

TOP = pathlib.Path(__file__).resolve().parents[2]
sys.path[:0] = [str(TOP / folder) for folder in ("tools", "tests")]
from heglorwy import advice
from heglorwy.params_findings import looks_like_params, of_params
from heglorwy.program import Scratch
from heglorwy.proofreading import findings, of_faults

CONSTANT = 10_000
FEE, RATE = "initial 3.80", "rate 0.20 per 117.4 m, 0.20 per 25.2 s"
NIGHT = "rate 0.20 per 100.0 m, 0.20 per 25.2 s when {}"
MISSED = "is the end, so that minute isn't in it; write"
TIERS = [NIGHT.format("after 4000 m and not after 8000 m"), "rate 0.20 per 80 m, 0.20 per 25.2 s when after 8001 m", RATE]
CHRISTMAS = "date 12-24..12-24 and time 20:00..00:00 or date 12-25..12-25 or day sat and time 00:00..06:00"
# The words that have to be told, the line that is meant, and the lines of the tariff but for its step.
TOLD = [
    ("cover:", 2, ["initial 3.80 covers 234.8", RATE]),
    ("cover:", 3, ["positions 2", "initial 3.80 covers 500 when position 2", FEE, RATE]),
    ("cover:", 2, ["initial 3.80 covers 999999.99", RATE]), ("speed:", 3, [FEE, "rate 1.70 per 1000 m, 39.00 per 60 s"]),
    ("speed:", 3, [FEE, "rate 0.20 per 117.4 m, 0.20 per 2.5 s"]),
    ("speed:", 3, [FEE, "rate 0.20 per 11.7 m, 0.20 per 25.2 s when time 22:00..06:00", RATE]),
    ("speed:", 3, [FEE, "rate 0.01 per 117.4 m, 0.20 per 25.2 s"]),
    (f"minute: 05:59 {MISSED} 22:00..06:00", 3, [FEE, NIGHT.format("time 22:00..05:59"), RATE]),
    (f"minute: 21:59 {MISSED} 06:00..22:00", 3, [FEE, NIGHT.format("time 06:00..21:59"), RATE]),
    (f"minute: 23:59 {MISSED} 22:00..00:00", 3, [FEE, NIGHT.format("time 22:00..23:59"), RATE]),
    (f"minute: 23:59 {MISSED} nothing", 3, [FEE, NIGHT.format("time 00:00..23:59"), RATE]),
    ("gap: what lies between 8000.0 and 8001.0 m", 4, [FEE, *TIERS]),
    (
        "gap: what lies between 600.0 and 600.1 s", 4,
        [FEE, NIGHT.format("not after 600 s"), "rate 0.20 per 80 m, 0.20 per 25.2 s when after 600.1 s", RATE],
    ),
    ("amount: this is 50", 2, ["initial 380", RATE]), ("amount: this is 50", 2, ["minimum 600", FEE, RATE]),
    ("amount: this is 50", 3, ["positions 2", "initial 480 when position 2", FEE, RATE]),
    ("amount: this is 50", 3, [FEE, "rate 20 per 117.4 m, 20 per 25.2 s when time 22:00..06:00", RATE]),
    ("amount: this is 100", 2, ["supplement 1 200 max 4", FEE, RATE]),
    (
        "brackets: `and` binds tighter than `or`, so this reads `holiday or (time 22:00..06:00 and ..)`", 4,
        ["holiday 2026-12-25", FEE, NIGHT.format("holiday or time 22:00..06:00 and not after 9656.1 m"), RATE],
    ),
    (
        "brackets: `and` binds tighter than `or`, so this reads `not day sun or (day fri..sat and ..)`", 4,
        ["zones 2", FEE, NIGHT.format("zone 2 and (not day sun or day fri..sat and time 00:00..06:00)"), RATE],
    ),
]
# Lines of which nothing is said.
SILENT = [
    ["initial 5 when day fri and time 22:00..00:00 or day sat and time 00:00..06:00", FEE, RATE],
    [FEE, NIGHT.format(CHRISTMAS), RATE],
    ["zones 2", FEE, NIGHT.format("day sun or zone 2 and time 20:00..22:00"), RATE],
    ["zones 2", FEE, NIGHT.format("day sun or (time 20:00..22:00 and zone 2)"), RATE],
    [FEE, "rate 1.70 per 1000 m, 39.00 per 3600 s"], [FEE, "rate 0.20 per 117.4 m, 0.00 per 25.2 s"],
    [FEE, "rate 0.00 per 117.4 m, 0.20 per 25.2 s"],
    [FEE, NIGHT.format("not after 8000 m"), "rate 0.20 per 80 m, 0.20 per 25.2 s when after 8500 m", RATE],
    ["positions 2", "initial 70.00 covers 999999.99 when position 2", FEE, RATE],
    ["supplement 1 6.50 max 1", "minimum 8", FEE, RATE],
]
# What has to be told of a text of parameters, the line, the part that is marked, and what the line is turned to.
PARAMS_TOLD = [
    ("mode S is written `single`", 3, "S", "mode S"), ("mode S is written `single`", 3, "D", "mode D"),
    ("without marks between thousands", 2, "10.000", "constant 10.000"),
    ("without marks between thousands", 2, "10,000", "constant 10,000"),
    ("year, month and day", 6, "15.01.2026", "secured 15.01.2026"),
    ("year, month and day", 6, "2026/01/15", "secured 2026/01/15"),
    ("year, month and day", 6, "15-01-2026", "secured 15-01-2026"),
    ("a date of 2000 to 2199", 6, "2026-02-30", "secured 2026-02-30"),
    ("capital letters alone", 1, "hg-1", "taxi hg-1"), ("without a unit", 4, "s", "hold 60 s"),
    ("0 to 600 seconds", 4, "601", "hold 601"), ("500 to 200000", 2, "499", "constant 499"),
    ("has no sign", 5, "+", "offset 946684800 +3600"), ("in seconds, as 3600", 5, "01:00", "offset 946684800 01:00"),
    ("a second stands before", 5, "3600", "offset 3600"),
    ("a second since 1970", 5, "2000-01-01", "offset 2000-01-01 3600"),
    ("the first second is 946684800".capitalize(), 5, "946684801 3600", "offset 946684801 3600"),
    ("is `constant` meant?", 2, "Constant", "Constant 10000"), ("one blank", 3, ":", "mode: single"),
    ("a line of its own", 4, " # seconds", "hold 60 # seconds"), ("is no key", 5, "xyz", "hold 60\nxyz 60"),
    ("an earlier line says `hold`", 5, "", "hold 60\nhold 60"),
]
SOUND = "taxi HG-0815\nconstant 10000\nmode single\nhold 60\noffset 946684800 3600\nsecured 2026-01-15\n"
FILES = [
    ("xl/workbook.xml", "a workbook of a spreadsheet (.xlsx)"), ("word/document.xml", "a document (.docx)"),
    ("a", "an archive"),
]  # fmt: skip


@pytest.fixture(scope="module", name="taxi")
def one_taxi():
    with Scratch("taxi") as taxi:
        yield taxi


@pytest.fixture(autouse=True)
def at_a_day(monkeypatch):
    monkeypatch.setattr(advice, "today", lambda: datetime.date(2026, 1, 1))


def tariff_of(lines):
    return "\n".join(["step 0.20", *lines, ""]).encode()


@pytest.mark.parametrize("words, line, lines", TOLD)
def test_told(taxi, words, line, lines):
    found = findings(taxi, tariff_of(lines), CONSTANT)
    assert [one.line for one in found if one.said.startswith(words)] == [line], [one.said for one in found]


def test_a_step_in_hundredths_is_told(taxi):
    found = findings(taxi, f"step 20\n{FEE}\n{RATE}\n".encode(), CONSTANT)
    assert [(one.line, one.said.split(":")[0]) for one in found] == [(1, "amount")]


@pytest.mark.parametrize("lines", SILENT)
def test_silent(taxi, lines):
    assert [one.said for one in findings(taxi, tariff_of(lines), CONSTANT)] == []


def texts_of_pages():
    """The texts of the pages that may be tariffs: those of examples/, blocks, and what commands write."""
    for path in sorted((TOP / "examples").glob("*.tariff")):
        yield path.name, path.read_text()
    for page in [TOP / "README.md", *sorted((TOP / "docs").rglob("*.md"))]:
        for block in re.findall(r"(?ms)^```[^\n]*\n(.*?)^```", page.read_text()):
            yield page.name, block
            for written in re.findall(r"(?ms)<<'END'\n(.*?)^> END$", block):
                yield page.name, re.sub(r"(?m)^> ", "", written)
            # What tools/hints and `taxi lines` are shown on there are slips.
            is_shown = "tools/hints" in block or "taxi lines" in block
            for words in [] if is_shown else re.findall(r"printf '%s\\n' ((?:'[^']*'\s*)+)>", block):
                yield page.name, "\n".join([*re.findall(r"'([^']*)'", words), ""])


def test_no_tariff_of_the_pages_has_a_finding(taxi):
    sound = [(name, text) for name, text in texts_of_pages() if not of_faults(taxi, text.encode())]
    assert len(sound) >= 14, [name for name, _ in sound]
    for name, text in sound:
        assert [one.said for one in findings(taxi, text.encode(), CONSTANT)] == [], (name, text)


@pytest.mark.parametrize("words, line, marked, turned", PARAMS_TOLD)
def test_parameters_are_told(words, line, marked, turned):
    lines = SOUND.splitlines()
    at = line - 1 - turned.count("\n")
    text = "\n".join([*lines[:at], turned, *lines[at + 1 :], ""]).encode()
    found = of_params(text)
    assert looks_like_params(text) and [one.line for one in found] == [line], [one.said for one in found]
    here = text.decode().split("\n")[line - 1][found[0].at : found[0].at + found[0].width]
    assert words in found[0].said and here == marked, (found[0].said, here)


def test_each_fault_of_parameters_is_told():
    text = SOUND.replace("hold 60\n", "").replace("single", "S").replace("10000", "10.000").encode()
    assert [one.line for one in of_params(text)] == [2, 3, None]
    assert [one.line for one in of_params(b"taxi A\n")] == [None] * 5
    assert of_params(SOUND.encode()) == [] and of_params((TOP / "examples/taxi.params").read_bytes()) == []
    assert not looks_like_params((TOP / "examples/city.tariff").read_bytes())


@pytest.mark.parametrize("inside, kind", FILES)
def test_a_file_that_is_no_text(tmp_path, inside, kind):
    with zipfile.ZipFile(tmp_path / "given", "w") as packed:
        packed.writestr(inside, "step 0.20")
    done = subprocess.run([TOP / "tools/hints", tmp_path / "given"], capture_output=True, text=True, check=False)
    assert done.returncode == 1 and f"this is {kind}, and no text" in done.stdout, done
