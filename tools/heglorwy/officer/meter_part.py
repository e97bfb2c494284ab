"""The hirings for the meter, beside those for the tariff: what a meter may do wrong that no line of a tariff says."""

from typing import NamedTuple

from heglorwy.officer import day_ideas, fare_ideas, trip_ideas
from heglorwy.officer.ideas import chosen, closings
from heglorwy.officer.ride import MINUTE, text_of, ticks_of
from heglorwy.officer.town import Town

BENCH_ALONE = 35 * MINUTE  # ticks: what takes longer is for a bench


class MeterDrive(NamedTuple):
    """A drive for the meter, with what each of its hirings is for."""

    name: str
    acts: list
    purposes: list
    needs_clock: bool

    @property
    def ticks(self):
        return ticks_of(self.acts)

    @property
    def count(self):
        return closings(self.acts)


class MeterPart(NamedTuple):
    drives: list
    notes: list  # what was left out, and why


def fits(name, idea, missed, asked):
    """Why an idea isn't driven, or nothing."""
    minutes = -(-ticks_of(idea.acts) // MINUTE)
    if idea.foils and len(missed) == len(idea.foils):
        return f"{name.replace('_', ' ')}: no fare shows it"
    if ticks_of(idea.acts) > asked.longest:
        return f"{name.replace('_', ' ')}: it takes {minutes} minutes, which is longer than --longest"
    if ticks_of(idea.acts) > BENCH_ALONE and not asked.is_on_bench:
        return f"{name.replace('_', ' ')}: it takes {minutes} minutes, and is for a bench alone (--bench)"
    return ""


def meter_part(program, asked):
    """The drives for the meter under a tariff."""
    town, drives, notes = Town(program, asked.fastest), [], []
    by_name = [(name, make, False) for name, make in {**trip_ideas.IDEAS, **fare_ideas.IDEAS}.items()]
    by_name += [(name, make, True) for name, make in day_ideas.ideas(town).items()]
    for name, make, needs_clock in by_name:
        if isinstance(make, str):
            notes.append(make)
            continue
        idea, missed = chosen(town, asked.seed, name, make)
        why = idea if isinstance(idea, str) else fits(name, idea, missed, asked)
        if why:
            notes.append(why)
            continue
        notes += [f"{name.replace('_', ' ')}: {said}: no fare shows it" for said in missed]
        drives.append(MeterDrive(name, town.needed(idea.acts), idea.purposes, needs_clock))
    return MeterPart(drives, notes)


def drive_text(meter, drive, comments):
    """The drive as it is written into a file."""
    return "".join(f"# {comment}\n" for comment in comments).encode() + text_of(meter, drive.acts)
