"""Parts of a tariff that tools look up in its lines."""

import math

from heglorwy.tariff_kinds import KINDS

DIMENSIONS = ["MonthDay", "Minute", "Distance", "Time"]
MONTHS = [31, 29, 31, 30, 31, 30, 31, 31, 30, 31, 30, 31]  # of a leap year


def atoms_of(condition):
    """The atoms of a condition, in order."""
    if condition is None:
        return []
    if condition[0] in ("and", "or", "not"):
        return [atom for inner in condition[1:] for atom in atoms_of(inner)]
    return [condition]


def atoms_in(lines):
    return [atom for line in lines for atom in atoms_of(line.when)]


def of_kind(lines, kind):
    return [line for line in lines if line.kind == kind]


def number_of(lines, kind):
    """How many positions or zones there are."""
    return next((line.parts["number"] for line in of_kind(lines, kind)), 1)


def place_of(month, date):
    """The place of a date in a leap year, from 0."""
    return sum(MONTHS[: month - 1]) + date - 1


def cuts_of(lines):
    """The cuts of each dimension, in order."""
    cuts = {name: set() for name in DIMENSIONS}
    for atom in atoms_in(lines):
        if atom[0] == "date":
            cuts["MonthDay"] |= {place_of(*atom[1]), place_of(*atom[2]) + 1} - {0, 366}
        elif atom[0] == "minute":
            cuts["Minute"] |= {*atom[1:]} - {0}
        elif atom[0] == "distance":
            cuts["Distance"].add(atom[1])
        elif atom[0] == "time of trip":
            cuts["Time"].add(atom[1])
    return {name: sorted(numbers) for name, numbers in cuts.items()}


def cells_of(lines):
    """How many cells there are."""
    kinds = 2 if of_kind(lines, "holiday") else 1
    bands = math.prod(len(cuts) + 1 for cuts in cuts_of(lines).values())
    return number_of(lines, "positions") * number_of(lines, "zones") * 7 * kinds * bands


def measure_of(lines):
    """The common measure of a sound tariff."""
    return math.lcm(1, *(line.parts[name] for line in lines for name in KINDS[line.kind].measures))
