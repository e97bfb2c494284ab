"""Hirings that go the same long way are joined, so that it is driven once."""

from heglorwy.officer.fixed import approach
from heglorwy.officer.hirings import Leg
from heglorwy.officer.levels import NOT_EQUAL, NOT_TOLD

LONG_WAY = 600  # ticks
NEAR = 20  # ticks by which ways may differ


def tail(hiring):
    """The legs of a hiring behind its way."""
    return hiring.legs[len(approach(hiring).legs) :]


def joined(first, other):
    """A hiring that goes on with the tail of another one, in its position and zone."""
    place = (other.position, other.zone) if last_place(first) != (other.position, other.zone) else None
    start, *rest = tail(other) or (Leg(0, 1),)
    return first.on(start._replace(place=place), *rest)


def last_place(hiring):
    """The position and the zone at the end of a hiring."""
    places = [leg.place for leg in hiring.legs if leg.place]
    return places[-1] if places else (hiring.position, hiring.zone)


def alike(one, other):
    """Whether two hirings go the same way, but for a little."""
    return one.second == other.second and abs(one.at - other.at) <= NEAR


def groups(hirings):
    """Hirings with a long way that they have in common, the shortest way first."""
    left = [hiring for hiring in hirings if hiring.at >= LONG_WAY]
    left.sort(key=lambda hiring: (hiring.second, hiring.at))
    while left:
        group = [hiring for hiring in left if alike(left[0], hiring)]
        left = [hiring for hiring in left if hiring not in group]
        if len(group) > 1:
            yield group


class Joining:
    """Joins hirings of a matrix, and adds to it what tells as much together as apart."""

    def __init__(self, matrix, ends, longest):
        self.matrix, self.ends, self.longest = matrix, ends, longest

    def join(self, places):
        """Joins the chosen hirings that go the same way."""
        for group in groups([self.matrix.hirings[at] for at in places]):
            self.merge(group)
            self.retune(group)

    def told_by(self, hirings):
        """The cases that some hirings tell at the best level, and that level."""
        found = {}
        places = [self.matrix.hirings.index(hiring) for hiring in hirings]
        for title, row in self.matrix.rows.items():
            best = max(row.values(), default=NOT_TOLD)
            if best > NOT_TOLD and any(row.get(at) == best for at in places):
                found[title] = best
        return found

    def merge(self, group):
        """Goes through a group, and adds the tail of each hiring where all is told as well as before."""
        whole, parts = group[0], [group[0]]
        for other in group[1:]:
            hiring = joined(whole, other)
            if hiring.ticks > self.longest or self.loses(hiring, [*parts, other]):
                continue
            whole, parts = hiring, [*parts, other]
            self.matrix.add(hiring, *(purpose for part in parts for purpose in self.matrix.purposes[part]))

    def loses(self, hiring, parts):
        """Whether a joined hiring tells a case less well than its parts, of those that aren't permitted. The others go
        by where a step begins, and are retuned."""
        at = self.matrix.add(hiring)
        for title, best in self.told_by(parts).items():
            if best > NOT_EQUAL and self.matrix.tried(self.matrix.cases[title], [at])[at] < best:
                return True
        return False

    def retune(self, group):
        """What shows only where a step begins is looked for at the ends of one hiring with the tails of all that show
        it: an end behind a border tells what is cheaper, and one before it what is dearer."""
        told = self.told_by(group)
        cases = [self.matrix.cases[title] for title, best in told.items() if best == NOT_EQUAL]
        places = [self.matrix.hirings.index(hiring) for hiring in group]
        parts = [
            hiring
            for at, hiring in zip(places, group)
            if any(self.matrix.rows[case.title].get(at) == NOT_EQUAL for case in cases)
        ]
        if len(parts) < 2:
            return
        whole = parts[0]
        for other in parts[1:]:
            whole = joined(whole, other)
        new, program = set(), self.matrix.program
        for case in cases:
            right, wrong = (program.explained(text, [whole])[0] for text in (program.meter.tariff, case.text))
            if tuned := self.ends.tuned(case.text, whole, right, wrong):
                new.add(self.matrix.add(tuned))
        for case in cases:
            self.matrix.tried(case, sorted(new))
