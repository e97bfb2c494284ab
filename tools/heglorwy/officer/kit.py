"""The kit: the drives of a verification, and the list that says what each is for."""

import random
import re
import secrets
from typing import NamedTuple

from heglorwy.drives import SECOND
from heglorwy.officer.asking import Program
from heglorwy.officer.choosing import Beside, Choice
from heglorwy.officer.fixed import Fixed, fixed, over_cross_over
from heglorwy.officer.joining import Joining
from heglorwy.officer.levels import NOT_PERMITTED, NOT_TOLD
from heglorwy.officer.listing import listing
from heglorwy.officer.matrix import Case, Matrix
from heglorwy.officer.meter_part import meter_part
from heglorwy.officer.moving import Moving
from heglorwy.officer.search import Search
from heglorwy.officer.turns import turns_of
from heglorwy.program import Refused, Scratch
from heglorwy.tariff_parts import of_kind

HALF_A_YEAR = 182 * 86_400  # seconds: whole weeks
MINUTES = 60 * SECOND  # ticks
SEEDS = 1_000_000


class Asked(NamedTuple):
    """What the officer asks of a kit."""

    fastest: int  # km/h
    longest: int  # ticks
    is_on_bench: bool
    with_days: bool
    with_expiry: bool
    seed: int

    @property
    def words(self):
        """The words that ask for it."""
        flags = {"--bench": self.is_on_bench, "--days": self.with_days, "--expiry": self.with_expiry}
        numbers = {"--seed": self.seed, "--fastest": self.fastest, "--longest": self.longest // MINUTES}
        return " ".join(
            [*(f"{name} {number}" for name, number in numbers.items()), *(name for name in flags if flags[name])]
        )


class Kit:
    """The hirings of a kit, and what is said of them."""

    def __init__(self, program, asked):
        self.program, self.asked = program, asked
        self.search = Search(program, asked.fastest, asked.longest)
        self.matrix = Matrix(program, self.level_of)
        self.beside = Beside(program, self.search.step)
        self.reasons = {}  # of what no drive tells as it should
        self.found = {}  # the hiring that was found for a turn
        self.notes = []
        self.by_rate = {}

    def level_of(self, case, hiring, right, wrong):
        return self.search.level(case.turn, hiring, right, wrong)

    def make(self):
        """Finds the hirings for the tariff, and gives the places of those that are chosen."""
        for purpose, hiring in fixed(self.program, self.search.fast, self.asked.with_expiry):
            self.matrix.add(hiring, purpose)
        for turn in turns_of(self.program.tariff, self.asked.with_days):
            self.follow(turn)
        self.add_cross_overs()
        self.add_parameters()
        self.matrix.complete()
        Joining(self.matrix, self.search.ends, self.asked.longest).join(self.chosen())
        chosen = self.chosen()
        for case in list(self.matrix.cases.values()):
            self.matrix.tried(case, chosen)
        chosen = Moving(self, random.Random(f"{self.asked.seed} moving")).moved(self.chosen(among=chosen))
        self.program.explain([self.matrix.hirings[at] for at in chosen])
        return chosen

    def chosen(self, among=None):
        """The hirings that are chosen; among others that were chosen before, only those that are still needed."""
        choice = Choice(self.matrix, self.beside, self.asked.is_on_bench)
        return choice.places() if among is None else sorted(choice.without_idle(set(among)))

    def follow(self, turn):
        """Finds a hiring for a turn, and where it isn't told as it should be, for the same turn by more."""
        while turn:
            case = Case(turn.title, turn, self.program.form(turn.lines))
            if self.matrix.tried(case, self.matrix.places(False)) is None:
                return
            if self.matrix.top(case) < turn.wanted and not turn.is_of_steps:
                self.matrix.tried(case, self.matrix.places(True))
            if self.matrix.top(case) < turn.wanted and not self.find(case, turn):
                return
            row = self.matrix.rows[case.title]
            if self.matrix.top(case) > NOT_TOLD:
                self.found[turn.title] = self.matrix.hirings[max(row, key=row.get)]
                if turn.rate:
                    self.by_rate.setdefault(turn.rate[0], self.found[turn.title])
            if not turn.further or self.matrix.top(case) == NOT_PERMITTED:
                return
            turn = turn.further()

    def find(self, case, turn):
        """Looks for a hiring that tells a turn; tells whether the turned tariff is a wrong one."""
        found = self.search.tell(turn)
        if found.reason in ("SAME", "unsound"):
            del self.matrix.rows[case.title], self.matrix.cases[case.title]
            return False
        if found.level > self.matrix.top(case):
            self.matrix.tried(case, [self.matrix.add(found.hiring)])
        if self.matrix.top(case) < turn.wanted:
            self.reasons[turn.title] = found.reason
        return True

    def add_cross_overs(self):
        """Even speeds beside the cross-over speed of each rate."""
        for line in of_kind(self.program.tariff.lines, "rate"):
            made = over_cross_over(self.program, line, self.by_rate.get(line.number), self.search.fast)
            if isinstance(made, Fixed):
                self.matrix.add(made.hiring, made.purpose)
            else:
                self.notes.append(made)

    def add_parameters(self):
        """The right tariff under other parameters: the mode, and local time that never changes."""
        meter = self.program.meter
        other = b"double" if meter.mode == "single" else b"single"
        mode = re.sub(rb"(?m)^mode [a-z]+", b"mode " + other, meter.params)
        wrong = [("the other mode", mode)]
        if len(meter.offsets) > 1:
            first = re.compile(rb"(?m)^offset (?!0*946684800 ).*\n?")
            wrong.append(("the first sealed offset for ever", first.sub(b"", meter.params)))
            for title, hiring in list(self.found.items()):
                if "`time " in title and ("begins" in title or "ends" in title):
                    self.add_half_a_year_later(hiring)
        for title, params in wrong:
            self.matrix.tried(Case(title, None, meter.tariff, params), self.matrix.places(False))

    def add_half_a_year_later(self, hiring):
        """The hiring at the same local time 26 weeks later, for the other offset."""
        meter, later = self.program.meter, hiring.second + HALF_A_YEAR
        moved = later - meter.offset_at(later) + meter.offset_at(hiring.second)
        if meter.offset_at(moved) != meter.offset_at(hiring.second):
            self.matrix.add(hiring._replace(second=moved))


def made(taxi, words):
    """The list and the drives of a kit."""
    seed = secrets.randbelow(SEEDS) if words.seed is None else words.seed
    asked = Asked(words.fastest, words.longest * MINUTES, words.bench, words.days, words.expiry, seed)
    program = Program(taxi, words)
    part = meter_part(program, asked)
    kit = Kit(program, asked)
    return listing(kit, kit.make(), part)


def drives(words):
    """Writes the drives and their list into a new folder; gives the list."""
    with Scratch("taxi") as taxi:
        kit = made(taxi, words)
    write(words.folder, kit)
    return kit.text, 0


def write(folder, kit):
    """Writes a list and its drives into a folder that is new or empty."""
    try:
        folder.mkdir(parents=True, exist_ok=True)
        if any(folder.iterdir()):
            raise Refused(2, f"{folder} isn't empty")
        for drive in kit.drives:
            (folder / drive.name).write_bytes(drive.text)
        (folder / "list.txt").write_text(kit.text)
    except OSError as error:
        raise Refused(7, f"{error.filename}: {error.strerror}") from None
