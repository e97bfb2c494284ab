"""What tools/estimate says of words that are written otherwise elsewhere, and of a trip that no taxi makes."""

import pathlib
import subprocess

import pytest

TOP = pathlib.Path(__file__).resolve().parents[2]
WRONG = [
    (["5", "12", "02.03.2026"], "'02.03.2026' is no day; year, month and day are written as 2026-03-02"),
    (["5", "12", "20260302"], "is no day; year, month and day are written as 2026-03-02"),
    (["5", "12", "2026-02-30"], "is no day; year, month and day are written as 2026-03-02"),
    (["6,5", "12"], "'6,5' has a comma; decimals have a point, as 6.5"),
    (["5", "12,5"], "'12,5' has a comma; decimals have a point, as 12.5"), (["five", "12"], "'five' is no number above 0"),
]  # fmt: skip


def estimated(*words):
    return subprocess.run(
        [TOP / "tools/estimate", TOP / "examples/city.tariff", *words], capture_output=True, text=True, check=False
    )


@pytest.mark.parametrize("words, said", WRONG)
def test_words(words, said):
    done = estimated(*words)
    assert done.returncode == 2 and done.stdout == "" and said in done.stderr and "fromisoformat" not in done.stderr


def test_a_trip_that_is_too_fast_is_told():
    done = estimated("500", "20")
    assert done.returncode == 0 and done.stdout.startswith("FARE ")
    assert done.stderr == "estimate: 500 km in 20 minutes are 1500 km/h; is KM or MINUTES meant otherwise?\n"
    assert estimated("65", "20").stderr == ""
