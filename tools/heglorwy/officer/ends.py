"""Ends in step: where a difference is less than a display step, a hiring is driven on to where the sum of one tariff
has begun the next step and that of the other hasn't."""

from heglorwy.officer.hirings import Leg
from heglorwy.officer.turns import step_of

MOST = 6000  # intervals that a hiring is driven on
PART = 2  # the last interval has at least this part of the pulses


class Ends:
    def __init__(self, program, fast):
        self.program, self.fast = program, fast

    def tuned(self, text, hiring, right, wrong):
        """The hiring, driven on to where its fare differs; None where it never does."""
        for pulses in (0, self.fast):
            hirings = [hiring.on(*legs) for legs in self.near(text, hiring, right, wrong, pulses)]
            if not hirings:
                continue
            wrongs, rights = self.program.shown(text, hirings), self.program.show(hirings)
            differing = [end for end, one, other in zip(hirings, rights, wrongs) if one.fare != other.fare]
            if differing:
                return min(differing, key=lambda end: end.ticks)
        return None

    def near(self, text, hiring, right, wrong, pulses):
        """Ways on to beside the next borders of a step, under either tariff."""
        longer = [hiring.on(Leg(pulses, 1))]
        one, other = (self.program.explained(one, longer)[0] for one in (self.program.meter.tariff, text))
        counts = set()
        for told, more in ((right, one), (wrong, other)):
            counts |= set(self.borders(told, more.charged - told.charged))
        for count in sorted(counts):
            yield Leg(pulses, count),
            for last in range(self.fast, self.fast // PART, -1) if pulses or self.fast > 1 else ():
                yield Leg(pulses, count), Leg(last, 1)

    def borders(self, told, each):
        """How many more intervals bring a sum of charges beside the border of a display step."""
        if each <= 0:
            return
        full = step_of(self.program.tariff) * told.unit
        above = told.charged - told.cover * told.unit
        left = -above if above < 0 else -above % full
        for border in (left, left + full, left + 2 * full):
            count = border // each
            yield from (number for number in range(count - 1, count + 3) if 0 <= number <= MOST)
