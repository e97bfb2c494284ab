"""Looks for the hiring that tells a turned tariff from the right one: where `compare` says that they differ first, and
on from there until the fare tells."""

import datetime
import itertools
from fractions import Fraction
from typing import NamedTuple

from heglorwy.drives import SECOND
from heglorwy.officer.ends import Ends
from heglorwy.officer.fixed import NOON
from heglorwy.officer.hirings import LATE, Context, Hiring, Leg
from heglorwy.officer.levels import NOT_EQUAL, NOT_PERMITTED, NOT_TOLD, SHORT_OF_STEPS, level
from heglorwy.officer.turns import step_of
from heglorwy.tariff_parts import atoms_in, number_of, of_kind
from heglorwy.tariff_kinds import IN_CELLS

SHORT = [1, 10, 50, 100, 200, 300, 400, 500, 600]  # ticks
LONG = [1000, 1600, 2500, 4000, 6000, 10_000, 16_000, 25_000]
OF_ALL = ("DIFFERENT STEP", "DIFFERENT ROUNDING")  # what each hiring may show
BEYOND = 20  # ticks that are driven on behind a border of distance or duration, so that a pulse less is no matter
BASES = [50, 600, 2500]  # ticks behind which an end in step is looked for
MOST_STEPS = 2000
STEPS = 103  # of the display, by which a rate is told: 2 % of them are two, wherever they begin
PARTS = [("a", "b"), ("c", "e")]  # of a rate: what a distance costs, and what a time costs
OTHER_WAY = {"distance": "TIME", "time": "DISTANCE"}
TIMES = [1, 2, 4]  # as many, where a minimum fare or a great fee hides the first ones


class Found(NamedTuple):
    """The hiring that tells a turn best, at which level, and why it is no better."""

    level: int
    hiring: Hiring | None
    reason: str = ""


class Search:
    def __init__(self, program, fastest, longest):
        """The search for a driver who is at most so fast, in km/h, and drives for at most so many ticks."""
        self.program, self.meter, self.longest = program, program.meter, longest
        self.kmh, self.fast = fastest, max(1, int(fastest * self.meter.constant) // 36_000)
        self.lines, self.step = program.tariff.lines, step_of(program.tariff)
        self.secured = datetime.date.fromisoformat(self.meter.secured)
        self.masks = list(masks_of(self.lines))
        self.dearest = dearest(self.lines, self.step, self.meter.constant)
        self.ends = Ends(program, self.fast)

    def lengths(self, line):
        """How many ticks a rate is driven for so many display steps, by distance and by time; 0 where it is free."""
        metres, ticks = needed(line, self.step)
        pulses = -(-metres * self.meter.constant // 10_000)
        return -(-pulses // self.fast) + 2 * (pulses > 0), ticks + 2 * (ticks > 0)

    def line_of(self, turn):
        return next(line for line in self.lines if line.number == turn.rate[0])

    def driven_share(self, turn, hiring):
        """How much of the steps by which a rate is told was charged by it, at most 1."""
        number, name = turn.rate
        far, long = needed(self.line_of(turn), self.step)
        told = self.program.explain([hiring])[0]
        groups = [group for group in told.groups if group[0] == number and group[1] != OTHER_WAY[name]]
        driven = sum(group[2] if name == "distance" else group[3] for group in groups)
        return min(1, Fraction(driven, 100 * far if name == "distance" else long))

    def level(self, turn, hiring, right, wrong):
        """The level at which a hiring tells a turn. A rate is told by so many steps, or by all of its band."""
        found = level(right, wrong, self.step)
        if found == NOT_PERMITTED and turn and turn.is_of_steps and self.driven_share(turn, hiring) < 1:
            return SHORT_OF_STEPS
        return found

    def masked(self, lines, mask):
        """The text in which all contexts but those of a mask are the same."""
        new, seen = [], set()
        neutral = {
            "rate": of_kind(self.lines, "rate")[-1].parts, "initial": {"amount": 0, "covers": 0},
            "minimum": {"amount": 0},
        }
        for line in lines:
            if line.kind in IN_CELLS and line.kind not in seen:
                seen.add(line.kind)
                new.append(line._replace(parts=neutral[line.kind], when=("not", mask)))
            new.append(line)
        return self.program.form(new)

    def where(self, lines, mask):
        """Where a tariff differs first from the right one, under a mask or without one."""
        if mask is None:
            return self.program.compare(self.program.right, self.program.form(lines))
        return self.program.compare(self.masked(self.lines, mask), self.masked(lines, mask))

    def dates(self, date):
        """A date, or for one before the securing those behind it that may stand for it: of the same weekday, or of the
        same month and day."""
        if date >= self.secured:
            return [date]
        found = [self.secured + datetime.timedelta(days=(date.weekday() - self.secured.weekday()) % 7)]
        for year in range(self.secured.year, self.secured.year + 5):
            try:
                found.append(date.replace(year=year))
            except ValueError:  # 29 February
                continue
        return [date for date in found if date >= self.secured][:4]

    def reached(self, context):
        """A hiring that comes to a context, or why none does."""
        second = self.meter.second_at(context.date, context.minute)
        if second is None:
            return None, "no second of the sealed offsets is this minute"
        ticks = max(context.ticks, -(-context.pulses // self.fast))
        if ticks > self.longest:
            return None, f"the way there takes {ticks / 36_000:.1f} hours, which is longer than --longest"
        each, more = divmod(context.pulses, ticks) if ticks else (0, 0)
        legs = (Leg(each, ticks - more), Leg(each + 1, more)) if ticks else ()
        return Hiring(context.position, context.zone, second, ticks).on(*legs), ""

    def tell(self, turn):
        """The hiring that tells a turn best."""
        text, best = self.program.form(turn.lines), Found(NOT_TOLD, None)
        masks = [] if turn.is_within and turn.further() else self.masks
        for mask in [None, *masks]:
            context = self.where(turn.lines, mask)
            if mask is None and context in OF_ALL:
                context = Context("STEP", 1, 1, self.secured, NOON)
            if not isinstance(context, Context):
                if mask is None:
                    return Found(NOT_TOLD, None, context or "unsound")
                continue
            for date in self.dates(context.date):
                found = self.told_at(turn, text, context._replace(date=date))
                if found.level > best.level or best.level == NOT_TOLD and found.reason:
                    best = found
                if best.level >= turn.wanted:
                    return best
        return best

    def told_at(self, turn, text, context):
        """The hiring that tells a turn best from a context on."""
        base, reason = self.reached(context)
        if base is None:
            return Found(NOT_TOLD, None, reason)
        best = self.first_of(turn, text, base, self.short_ways(turn, base))
        if best.level < turn.wanted <= NOT_EQUAL:
            best = self.tuned(text, base, context)
        if best.level < turn.wanted and not turn.is_within:
            best = max(best, self.first_of(turn, text, base, self.long_ways(base)), key=lambda found: found.level)
        return best if best.level >= NOT_EQUAL else self.tuned(text, base, context)

    def first_of(self, turn, text, base, ways):
        """The hiring of the first way that tells a turn as it should be told, or the best one of all."""
        best = Found(NOT_TOLD, None)
        for late, beyond, legs in ways:
            start = base._replace(second=base.second + late).on(Leg(self.fast, beyond))
            hirings = [start.on(leg) for leg in legs if base.at + beyond + leg.count <= self.longest]
            wrongs = self.program.shown(text, hirings)
            if wrongs is None:
                return Found(NOT_TOLD, None, "unsound")
            found = self.best_of(turn, list(zip(hirings, self.program.show(hirings), wrongs)))
            best = max(best, found, key=lambda found: found.level)
            if best.level >= turn.wanted:
                break
        return best

    def short_ways(self, turn, base):
        """How late within the minute the clock is set, how far is driven beyond the border that was come to, and what
        is driven from there, in the order in which it is tried; of a rate so long that 103 steps are driven."""
        if turn.is_of_steps:
            name = turn.rate[1]
            length = self.lengths(self.line_of(turn))[name == "time"]
            for beyond, times in itertools.product(self.beyonds(base), TIMES):
                yield LATE, beyond, [Leg(0 if name == "time" else self.fast, times * length)]
        for beyond in self.beyonds(base):
            yield LATE, beyond, self.both(SHORT)
        if not turn.is_of_steps:
            yield 0, 0, self.both(SHORT)

    def long_ways(self, base):
        for beyond in self.beyonds(base):
            yield LATE, beyond, self.both(LONG)

    def beyonds(self, base):
        return (BEYOND, 0) if base.at else (0,)

    def both(self, lengths):
        """Standing and driving, for each of some times; not on to where 0.1 % of the fare are two display steps."""
        return [
            Leg(pulses, length)
            for length in lengths
            for pulses in (0, self.fast)
            if pulses * length * self.dearest[0] + length * self.dearest[1] <= MOST_STEPS
        ]

    def best_of(self, turn, entries):
        """The shortest hiring that tells a turn at the best level; of a rate by all of its band where that is short."""
        found = [(min(turn.wanted, self.level(turn, *entry)), entry[0]) for entry in entries]
        top = max((entry[0] for entry in found), default=NOT_TOLD)
        if top == NOT_TOLD:
            return Found(NOT_TOLD, None)
        best = [hiring for at, hiring in found if at == top]
        if top == SHORT_OF_STEPS:
            most = max(self.driven_share(turn, hiring) for hiring in best)
            best = [hiring for hiring in best if self.driven_share(turn, hiring) == most]
        return Found(top, min(best, key=lambda hiring: hiring.ticks))

    def tuned(self, text, base, context):
        """A hiring that ends where the difference of less than a step fills one."""
        hirings = [base._replace(second=base.second + LATE).on(leg) for leg in self.both(BASES)]
        rights, wrongs = self.program.explained(self.meter.tariff, hirings), self.program.explained(text, hirings)
        apart = [entry for entry in zip(hirings, rights, wrongs) if entry[1].charged * entry[2].unit != entry[2].charged * entry[1].unit]
        for hiring, right, wrong in apart:
            if found := self.ends.tuned(text, hiring, right, wrong):
                return Found(NOT_EQUAL, found)
        hidden = "what is charged differs, and no fare shows it"
        return Found(NOT_TOLD, None, hidden if apart else self.why_not(context))

    def why_not(self, context):
        if context.pulses > context.ticks * self.fast:
            metres = context.pulses * 1000 // self.meter.constant
            seconds = context.ticks / SECOND
            return f"it differs from {metres} m and {seconds} s on, and no car of {self.kmh} km/h shows it"
        if context.kind == "MINIMUM":
            return "the hire fee hides it: the minimum fare isn't above it"
        return f"nothing is charged otherwise at up to {self.fast} pulses an interval"


def needed(line, step):
    """The decimetres and the ticks that come to so many display steps under a rate; 0 where they cost nothing."""
    rate = line.parts
    far, long = (-(-STEPS * step * rate[measure] // rate[amount]) if rate[amount] else 0 for amount, measure in PARTS)
    return far, long


def dearest(lines, step, constant):
    """The most display steps that a pulse and an interval come to under any rate."""
    rates = [line.parts for line in of_kind(lines, "rate")]
    return (
        max(10_000 * rate["a"] / (constant * rate["b"] * step) for rate in rates),
        max(rate["c"] / (rate["e"] * step) for rate in rates),
    )


def masks_of(lines):
    """What is looked at alone: each position, each zone, and each band of minutes."""
    for kind in ("position", "zone"):
        number = number_of(lines, f"{kind}s")
        yield from ((kind, at) for at in range(1, number + 1) if number > 1)
    minutes = sorted({0, *(minute for atom in atoms_in(lines) if atom[0] == "minute" for minute in atom[1:])})
    if len(minutes) > 1:
        yield from (("minute", first, last) for first, last in zip(minutes, [*minutes[1:], 0]))
