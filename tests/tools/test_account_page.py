"""The page of tools/account for a passenger: its lines in the order of the trip, no fractions, a currency if one is named,
and as wide as a telephone."""

import html
import pathlib
import re
import shutil
import subprocess
import sys

import pytest

TOP = pathlib.Path(__file__).resolve().parents[2]
sys.path[:0] = [str(TOP / folder) for folder in ("tools", "tests")]
from support.browser import Browser

# A night that ends: line 2 of the rates charges before line 1 does, and one amount has no few decimals.
TARIFF = """step 0.10 ahead
initial 3.00
rate 0.20 per 117.4 m, 0.20 per 25.3 s when not time 05:00..06:00
rate 0.20 per 88.9 m, 0.20 per 18.7 s
"""
PARAMS = "taxi A\nconstant 10000\nmode single\nhold 60\noffset 946684800 0\nsecured 2026-01-15\n"
DRIVE = "U 1772603940\nK H\nI 0 1\nI 10 300\nC 1772604000\nI 0 1\nI 10 300\nI 0 77\nK S\nI 0 1\nK C\nI 0 1\n"


@pytest.fixture(name="account")
def an_account(tmp_path):
    for name, text in (("tariff", TARIFF), ("drive", DRIVE), ("params", PARAMS)):
        (tmp_path / name).write_text(text)

    def of(*words):
        done = subprocess.run(
            [TOP / "tools/account", "tariff", "drive", "params", *words], cwd=tmp_path, capture_output=True, text=True,
            check=True,
        )
        return done.stdout

    return of


def test_lines_are_in_the_order_of_the_trip(account):
    for text in (re.sub(r"\s+", " ", account()), html.unescape(account("--html"))):
        trip, _, charged = text.partition("What was charged")
        order = re.findall(r"from here on line ([0-9]+) charges", trip)
        assert order == ["4", "3"] and re.findall(r"line ([0-9]+): rate", charged) == order


def test_a_page_has_no_fraction_and_the_text_has_them(account):
    fraction = r"[0-9]+/[0-9]+"
    assert re.search(fraction, account()) and not re.search(fraction, re.sub("</[a-z0-9]+>", "", account("--html")))


def test_a_currency_is_said_if_one_is_named(account):
    assert account("--currency", "EUR").splitlines()[0] == account().splitlines()[0] + " EUR"
    assert "EUR</h1>" in account("--currency", "EUR", "--html") and "&lt;b&gt;" in account("--currency", "<b>", "--html")


@pytest.mark.skipif(not (shutil.which("chromium") and shutil.which("chromedriver")), reason="no chromium")
def test_a_telephone_shows_it_whole(account, tmp_path):
    (tmp_path / "page.html").write_text(account("--html"))
    with subprocess.Popen(["chromedriver", "--port=0"], stdout=subprocess.PIPE, text=True) as driver:
        try:
            browser = Browser(driver)
            browser.open(f"file://{tmp_path}/page.html")
            browser.ask("POST", "/window/rect", {"width": 500, "height": 900})
            script = "return [document.documentElement.scrollWidth - window.innerWidth, Math.min(...[...document"
            script += ".querySelectorAll('.charged td:first-child')].map(one => one.getBoundingClientRect().width))]"
            over, narrowest = browser.ask("POST", "/execute/sync", {"args": [], "script": script})
        finally:
            driver.terminate()
    assert over <= 0 and narrowest > 250
