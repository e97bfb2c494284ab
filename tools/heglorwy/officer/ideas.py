"""Ideas of drives for the meter: what is driven, what each hiring is for, and foils: the drives for which a wrong meter
takes it. An idea is as good as its foils are told by the fare."""

import random
from typing import NamedTuple

from heglorwy.officer.levels import most
from heglorwy.officer.ride import text_of
from heglorwy.officer.turns import step_of

TRIES = 12  # of each idea, with other draws
PATIENCE = 5  # behind so many tries the ways get longer


class Foil(NamedTuple):
    """A drive for which a wrong meter takes another one: acts in the place of its own, or its clock read otherwise."""

    said: str  # what that meter does
    acts: list
    how: dict


class Idea(NamedTuple):
    acts: list
    purposes: list  # of each hiring, what it is for: meters in words
    foils: list = []
    is_any: bool = False  # one foil that is told is enough; the more, the better


def foil(said, acts, **how):
    return Foil(said, acts, how)


def closings(acts):
    return sum(act.what == "key" and act.value == "C" for act in acts)


def explained(program, acts, foils):
    """The fares of each hiring of the acts, and of each foil."""
    parts = [(acts, {}), *((one.acts, one.how) for one in foils)]
    told = program.explained_drive(b"D\n".join(text_of(program.meter, part, **how) for part, how in parts))
    fares = iter(one.fare for one in told)
    return [[next(fares) for _ in range(closings(part))] for part, _ in parts]


def untold(program, idea):
    """The foils that the fares don't tell."""
    if not idea.foils:
        return []
    right, *others = explained(program, idea.acts, idea.foils)
    step = step_of(program.tariff)
    is_told = lambda fares: any(abs(one - other) > most("fare", one, step) for one, other in zip(right, fares))
    return [one.said for one, fares in zip(idea.foils, others) if not is_told(fares)]


def chosen(town, seed, name, make):
    """The best of some tries of an idea, and the foils that it doesn't tell; or why there is none."""
    draw, best = random.Random(f"{seed} {name}"), None
    for attempt in range(TRIES):
        idea = make(town, draw, 1 + max(0, attempt - PATIENCE) / 2)
        if isinstance(idea, str):
            return idea, []
        missed = untold(town.program, idea)
        if best is None or len(missed) < len(best[1]):
            best = idea, missed
        if not missed:
            break
    idea, missed = best
    return idea, [] if idea.is_any and len(missed) < len(idea.foils) else missed
