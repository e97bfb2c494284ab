"""The cheapest hirings that tell each wrong meter at the best level."""

from heglorwy.officer.hirings import Leg
from heglorwy.officer.levels import NOT_PERMITTED, NOT_TOLD, level

COST = 200  # ticks: what a hiring costs besides its driving
# A right meter that is a little beside: what it makes of a hiring.
BESIDE = {
    "clock": [lambda hiring: hiring._replace(shift=-1), lambda hiring: hiring._replace(shift=1)],
    "pulse": [lambda hiring: with_a_pulse(hiring, 1), lambda hiring: with_a_pulse(hiring, -1)],
    "end": [lambda hiring: hiring.on(Leg(0, 1))],
}


def with_a_pulse(hiring, by):
    """The hiring with a pulse more or less in its first interval that has any."""
    for at, leg in enumerate(hiring.legs):
        if leg.pulses and leg.pulses + by <= 2000:
            first = leg._replace(pulses=leg.pulses + by, count=1)
            rest = leg._replace(count=leg.count - 1, place=None)
            new = (first, rest) if rest.count else (first,)
            return hiring._replace(legs=hiring.legs[:at] + new + hiring.legs[at + 1 :])
    return hiring


class Beside:
    """What right meters that are a little beside make of hirings."""

    def __init__(self, program, step):
        self.program, self.step = program, step
        self.fails, self.hangs, self.seen = set(), set(), set()

    def look_at(self, hirings):
        """Finds those that such a meter fails by a pulse or a second of its clock, and those whose fare hangs on one of
        these or on 0.1 s."""
        new = [hiring for hiring in hirings if hiring not in self.seen]
        self.seen |= set(new)
        rights = self.program.show(new)
        for name, ways in BESIDE.items():
            for way in ways:
                told = self.program.shown(self.program.meter.tariff, [way(hiring) for hiring in new])
                for hiring, right, other in zip(new, rights, told):
                    if (right.fare, right.kind) != (other.fare, other.kind):
                        self.hangs.add(hiring)
                        if name != "end" and level(right, other, self.step) == NOT_PERMITTED:
                            self.fails.add(hiring)


class Choice:
    """The choice among the hirings of a matrix. On a bench any hiring may be chosen. On the road none is that a right
    meter fails; and for each case that is more than a unit or a step the best hiring that hangs on nothing is, too."""

    def __init__(self, matrix, beside, is_on_bench):
        self.matrix, self.is_on_bench = matrix, is_on_bench
        hirings = list(enumerate(matrix.hirings))
        if not is_on_bench:
            beside.look_at(matrix.hirings)
        self.allowed = {at for at, hiring in hirings if hiring not in beside.fails}
        self.steady = {at for at, hiring in hirings if hiring not in beside.hangs}
        self.needs = list(dict.fromkeys([*self.of_purposes(), *self.of_cases()]))

    def of_purposes(self):
        """Each purpose that no turn names, as the hirings that have it."""
        purposes = {}
        for at, hiring in enumerate(self.matrix.hirings):
            for purpose in self.matrix.purposes[hiring]:
                purposes.setdefault(purpose, []).append(at)
        return map(frozenset, purposes.values())

    def of_cases(self):
        """Each case, as the hirings that tell it best, or as well as it should be."""
        for title, row in self.matrix.rows.items():
            most = self.matrix.cases[title].wanted
            is_small = most < NOT_PERMITTED
            for among in (self.allowed,) if self.is_on_bench or is_small else (self.steady, self.allowed):
                levels = {at: min(level, most) for at, level in row.items() if at in among and level > NOT_TOLD}
                if levels:
                    best = max(levels.values())
                    yield frozenset(at for at, level in levels.items() if level == best)

    def cost(self, at):
        return COST + self.matrix.hirings[at].ticks

    def places(self):
        """The places of the chosen hirings: for each need the cheapest by what it costs a need."""
        chosen, left = set(), self.needs
        while left:
            shares = {}
            for need in left:
                for at in need:
                    shares[at] = shares.get(at, 0) + 1
            chosen.add(max(sorted(shares), key=lambda at: shares[at] / self.cost(at)))
            left = [need for need in left if not need & chosen]
        return sorted(self.improved(self.without_idle(chosen)))

    def improved(self, chosen):
        """The chosen hirings, or cheaper ones: with one that makes others idle which cost more together."""
        for at in range(len(self.matrix.hirings)):
            other = self.without_idle(chosen | {at}, at)
            if self.sum_of(other) < self.sum_of(chosen):
                chosen = other
        return chosen

    def sum_of(self, chosen):
        return sum(map(self.cost, chosen))

    def without_idle(self, chosen, kept=None):
        """The chosen hirings but those without which all is done too; the dearest are left out first."""
        for at in sorted(chosen - {kept}, key=self.cost, reverse=True):
            if all(need & (chosen - {at}) for need in self.needs):
                chosen = chosen - {at}
        return chosen
