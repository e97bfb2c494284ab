"""Which hiring tells which wrong meter, and how well. A long hiring is tried only where a short one doesn't do."""

from typing import NamedTuple

from heglorwy.officer.levels import NOT_PERMITTED, NOT_TOLD

LONG = 2000  # ticks: a hiring that is longer is long


class Case(NamedTuple):
    """A wrong meter: a turned tariff, or the right one under other parameters."""

    title: str
    turn: object  # a Turn, or None
    text: bytes
    params: bytes | None = None

    @property
    def wanted(self):
        return self.turn.wanted if self.turn else NOT_PERMITTED


class Matrix:
    """The levels at which hirings tell cases, as far as they were tried. Hirings are only added."""

    def __init__(self, program, level_of):
        self.program, self.level_of = program, level_of
        self.hirings, self.purposes = [], {}
        self.cases, self.rows = {}, {}

    def add(self, hiring, *purposes):
        """Adds a hiring, for purposes that no turn names where there are any; gives its place."""
        if hiring not in self.purposes:
            self.hirings.append(hiring)
            self.purposes[hiring] = []
        self.purposes[hiring] += [purpose for purpose in purposes if purpose not in self.purposes[hiring]]
        return self.hirings.index(hiring)

    def places(self, are_long):
        return [at for at, hiring in enumerate(self.hirings) if (hiring.ticks > LONG) == are_long]

    def tried(self, case, places):
        """The row of a case, with the levels of these hirings; None where its tariff isn't sound."""
        row = self.rows.get(case.title, {})
        new = [at for at in places if at not in row]
        hirings = [self.hirings[at] for at in new]
        wrongs = self.program.shown(case.text, hirings, case.params)
        if wrongs is None:
            return None
        rights = self.known(hirings)
        row = row | {at: self.level_of(case, *pair) for at, *pair in zip(new, hirings, rights, wrongs)}
        self.rows[case.title], self.cases[case.title] = row, case
        return row

    def top(self, case):
        """The best level at which a case is told, as far as it was tried."""
        return max(self.rows.get(case.title, {}).values(), default=NOT_TOLD)

    def complete(self):
        """Tries each case on all hirings that isn't told as it should be."""
        self.known(self.hirings)
        for case in list(self.cases.values()):
            if self.top(case) < case.wanted:
                self.tried(case, range(len(self.hirings)))

    def known(self, hirings):
        """What the right meter shows. New hirings are shown together, so that the store isn't sealed for each case."""
        if any(hiring not in self.program.shown_right for hiring in hirings):
            return self.program.show(hirings)
        return [self.program.shown_right[hiring] for hiring in hirings]
