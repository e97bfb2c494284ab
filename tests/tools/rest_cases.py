"""A run that broke off, and what tools/rest may be given of it: files of wrong kinds, stores of other times, streams."""

import os
import pathlib
import subprocess
import tempfile
import time

from support.built import CITY, PARAMS, TAXI, TOP

SIMPLE = TOP / "examples/simple.tariff"
HIRED = "K H\nI 0 1\nI 20 100\nK S\nI 0 1\nK C\nI 0 1\n"
TWO = "U 1772434800\n" + HIRED + "C 1772435400\n" + HIRED + "D\n"  # line 8 ends the first hiring
# 200 m for hire, which are entered at the loss of supply in line 5.
ROAMED = "U 1772434800\nI 20 100\nK P 2\nI 0 1\nD\nU 1772492400\n" + HIRED
# 100 km for hire are entered in line 5, at the end of an interval in which a key waited.
WAITED = "U 1772434800\nI 2000 499\nK P 2\nP 2000\nT\n" + HIRED


class Run:
    """A taxi's folder, and beside it what the tool is given. Names have blanks."""

    def __init__(self, within, tools):
        self.top = pathlib.Path(tempfile.mkdtemp(dir=within))
        self.taxi, self.tool = self.top / "a taxi", tools / "rest"
        self.taxi.mkdir()
        self.call("seal", CITY, PARAMS)
        self.put("an opening", self.store())

    def path(self, name):
        return self.top / name

    def put(self, name, content):
        self.path(name).write_bytes(content if isinstance(content, bytes) else content.encode())

    def content(self, name):
        return self.path(name).read_bytes()

    def store(self):
        return (self.taxi / "taxi.store").read_bytes()

    def put_back(self, store):
        (self.taxi / "taxi.store").write_bytes(store)

    def call(self, *words):
        return subprocess.run([TAXI, *words], cwd=self.taxi, capture_output=True, check=False).stdout

    def carry_out(self, drive):
        self.put("carried out", drive)
        return self.call("run", CITY, self.path("carried out"))

    def over_opening(self, drive):
        """What the totals come to where a drive is carried out on the opening store; the store is put back."""
        store = self.store()
        self.put_back(self.content("an opening"))
        printed = self.carry_out(drive)
        totals = self.call("totals")
        self.put_back(store)
        return totals, printed

    def breaks_off(self, drive, lines):
        """Carries out the drive up to a line that commits; behind one the end of an input commits nothing."""
        self.put("a drive", drive)
        self.put("a roll", self.carry_out("".join(drive.splitlines(keepends=True)[:lines])))

    def rest(self, more=(), tariff=CITY, opening="an opening", folder="a taxi", drive="a drive", roll="a roll", **streams):
        """What the tool prints, what it says, and its status."""
        words = [self.tool, "--tariff", tariff, "--opening", opening, *more, folder, drive, roll]
        streams = {"stdout": subprocess.PIPE, "stderr": subprocess.PIPE} | streams
        done = subprocess.run(words, cwd=self.top, check=False, **streams)
        return done.stdout or b"", (done.stderr or b"").decode(), done.returncode


def other_opening(run):
    run.put("params", PARAMS.read_text().replace("HG-0815", "HG-0816"))
    (run.top / "other").mkdir()
    subprocess.run([TAXI, "seal", CITY, "../params"], cwd=run.top / "other", capture_output=True, check=True)
    run.put("an opening", run.content("other/taxi.store"))


def ended_early(lines):
    """The input of a run ended behind so many lines, where the drive has no loss of supply."""

    def prepare(run):
        run.put_back(run.content("an opening"))
        run.breaks_off(TWO.replace("U 1772434800\n", "U 1772434800\nI 20 300\n"), lines)

    return prepare


def swapped(run):
    late = run.store()
    run.put_back(run.content("an opening"))
    run.put("an opening", late)


def spoilt(run):
    """A gate is open before bytes that are no body."""
    run.put("an opening", b"\xa5" + run.store()[511:] + bytes(510))


def late_with_equal_displays(run):
    run.put_back(run.content("an opening"))
    run.breaks_off(WAITED, 5)
    run.put("an opening", run.store())


def goes_on(run):
    """A roll that earlier output stands in front of."""
    run.put("a roll", b"FOR HIRE T1 Z1\nRECEIPT 9\n" + run.content("a roll"))


# What is done to the run of TWO that broke off behind its first hiring, the words, the status, and a piece of the reason.
REFUSED = [

    ("another drive", lambda run: run.put("a drive", ROAMED), {}, 1, "no beginning of the drive leaves what the store has"),
    ("an empty drive", lambda run: run.put("a drive", ""), {}, 1, "no beginning of the drive leaves what the store has"),
    ("a bad line", lambda run: run.put("a drive", TWO + "X\n"), {}, 1, "ends with status 3 BAD DRIVE 18"),
    ("a torn drive", lambda run: run.put("a drive", TWO[:-1]), {}, 1, "ends with status 3 BAD DRIVE 17"),
    ("another tariff", lambda run: None, {"tariff": SIMPLE}, 1, "ends with status 6 WRONG TARIFF"),
    ("no tariff", lambda run: run.put("none", ""), {"tariff": "none"}, 1, "ends with status 6 WRONG TARIFF"),
    ("an empty opening store", lambda run: run.put("an opening", b""), {}, 1, "the opening store is none"),
    ("a torn opening store", lambda run: run.put("an opening", run.store()[:700]), {}, 1, "the opening store is none"),
    ("a spoilt opening store", spoilt, {}, 1, "the opening store is none"),
    ("another taxi's opening store", other_opening, {}, 1, "is of another taxi"),
    ("an opening store from behind the run", lambda run: run.put("an opening", run.store()), {}, 1, "no beginning of what the drive prints"),
    ("one from behind the run, with equal displays", late_with_equal_displays, {}, 1, "printed behind the next commit"),
    ("one that is later than the store", swapped, {}, 1, "it is from behind the run"),
    ("a copy that was put back", lambda run: run.put_back(run.content("an opening")), {}, 1, "an older copy was put back"),
    ("a store that was sealed again", lambda run: run.call("seal", CITY, PARAMS), {}, 1, "sealed again"),
    ("a store that went on", lambda run: run.carry_out(ROAMED), {}, 1, "no beginning of the drive leaves what the store has"),
    ("a torn store", lambda run: run.put_back(run.store()[:2047]), {}, 1, "totals ends with status 8"),
    ("an input that ended early, in a trip", ended_early(4), {}, 1, "no beginning of the drive leaves what the store has"),
    ("an input that ended early, for hire", ended_early(2), {}, 1, "no beginning of the drive leaves what the store has"),
    ("a roll of another run", lambda run: run.put("a roll", run.content("a roll").replace(b"3.90", b"3.80")), {}, 1,
     "no beginning of what the drive prints"),
    ("a roll with what was said", lambda run: run.put("a roll", run.content("a roll") + b"taxi: status 8\n"), {}, 1,
     "no beginning of what the drive prints"),
    ("a roll that goes on, without BYTES", goes_on, {}, 1, "no beginning of what the drive prints"),
    ("a roll that is shorter than BYTES", lambda run: None, {"more": ["--behind", "9999"]}, 1, "is to have had 9999"),
    ("BYTES below zero", lambda run: None, {"more": ["--behind", "-5"]}, 2, "BYTES"),
    ("BYTES that are none", lambda run: None, {"more": ["--behind", "5k"]}, 2, "BYTES"),
    ("no opening store", lambda run: os.remove(run.path("an opening")), {}, 7, "an opening: No such file"),
    ("no drive", lambda run: None, {"drive": "none"}, 7, "none: No such file"),
    ("no roll", lambda run: None, {"roll": "none"}, 7, "none: No such file"),
    ("no folder", lambda run: None, {"folder": "none"}, 7, "taxi.store: No such file"),
    ("a drive for another NUMBER", lambda run: run.put("a drive", "# LEFT FOR NUMBER 7\n" + TWO), {}, 1, "left for NUMBER 7"),
]


def in_use(run):
    """A meter that still waits for the rest of its drive."""
    os.mkfifo(run.path("pipe"))
    meter = subprocess.Popen([TAXI, "run", CITY, run.path("pipe")], cwd=run.taxi, stdout=subprocess.DEVNULL)
    with run.path("pipe").open("w") as pipe:
        pipe.write("U 1772434800\n")
        pipe.flush()
        time.sleep(0.3)
        answer = run.rest()
    meter.wait()
    return answer
