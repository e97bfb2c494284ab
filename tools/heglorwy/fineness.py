"""How fine mode S is under a constant: how much more than its exact charge an even speed can be charged, by
docs/METER.md, "How fine mode S is". All numbers are exact. They are compared with the weights that `tables` prints, and
with the cross-over speeds of `bench`."""

from fractions import Fraction
from math import ceil
from typing import NamedTuple

from heglorwy.program import Differs

CONSTANTS = 500, 200_000  # the least and the greatest
USUAL_PERCENT = Fraction(10)  # from which on bin/taxi warns behind a sealing
NO_DRIVE, NO_READINGS = b"U 946684800\n", b"fare,distance,time\n"


class Fineness(NamedTuple):
    """How fine a rate is under a constant."""

    number: int  # of the rate line, from 1
    line: int  # of the text
    speed: int | None  # the cross-over speed in whole metres an hour, rounded down; None where distance costs nothing
    pulses: Fraction | None  # of an interval at that speed
    percent: Fraction  # the most that an even speed is charged too much, of the charge at the cross-over speed


def weights_of(rate, constant):
    """What a pulse and an interval weigh under a rate, in a unit of its own."""
    return 10_000 * rate["a"] * rate["e"], rate["c"] * rate["b"] * constant


def too_much(per_pulse, per_tick):
    """What an even speed at the cross-over can be charged too much, and the charge that it is a share of."""
    over = per_tick % per_pulse if per_pulse and per_tick else 0
    return over * (per_pulse - over), per_pulse * per_tick


def percent_of(per_pulse, per_tick):
    """The same in percent; 0 where distance or time costs nothing."""
    above, whole = too_much(per_pulse, per_tick)
    return Fraction(100 * above, whole) if whole else Fraction(0)


def fineness_of(number, line, constant):
    rate = line.parts
    per_pulse, per_tick = weights_of(rate, constant)
    return Fineness(
        number, line.number, 3600 * rate["c"] * rate["b"] // (rate["a"] * rate["e"]) if per_pulse else None,
        Fraction(per_tick, per_pulse) if per_pulse else None, percent_of(per_pulse, per_tick),
    )


def finenesses(rates, constant):
    """How fine each of the `rate` lines of a tariff is."""
    return [fineness_of(number, line, constant) for number, line in enumerate(rates, 1)]


def is_fine(rates, constant, most):
    """Whether no even speed is charged more than so many percent too much under any rate."""
    for line in rates:
        above, whole = too_much(*weights_of(line.parts, constant))
        if 100 * above * most.denominator > most.numerator * whole:
            return False
    return True


def nearest(rates, constant, most):
    """The nearest constants for which each rate is so fine: from the given one down and from it up; None for none."""
    least, greatest = CONSTANTS
    down = (other for other in range(constant, least - 1, -1) if is_fine(rates, other, most))
    up = (other for other in range(constant, greatest + 1) if is_fine(rates, other, most))
    return next(down, None), next(up, None)


def compare_weights(found, weights):
    """Compares what was found with what a pulse and an interval weigh by the rows `RATE` of `tables`."""
    for fineness, (per_pulse, per_tick) in zip(found, weights, strict=True):
        pulses = Fraction(per_tick, per_pulse) if per_pulse else None
        if (pulses, percent_of(per_pulse, per_tick)) != (fineness.pulses, fineness.percent):
            raise Differs(f"rate {fineness.number} weighs {per_pulse} and {per_tick}, which isn't as fine as was found")


def compare_speeds(found, crossovers):
    """Compares what was found with the lines `CROSSOVER` of `bench`."""
    speeds = ["none" if fineness.speed is None else f"{fineness.speed} m/h" for fineness in found]
    wanted = [f"CROSSOVER {number} {speed}" for number, speed in enumerate(speeds, 1)]
    if crossovers != wanted:
        raise Differs(f"bench says {', '.join(crossovers)}, where {', '.join(wanted)} was found")


def crossovers_of(taxi, tariff, params):
    """The lines `CROSSOVER` of `bench`, under a tariff and parameters that are sealed in the program's folder."""
    taxi.well("seal", "tariff", "params", tariff=tariff, params=params)
    printed = taxi.well("bench", "tariff", "drive", "readings", drive=NO_DRIVE, readings=NO_READINGS)
    return [line for line in printed if line.startswith("CROSSOVER ")]


def decimal(number):
    """A number with at most three decimals; one that has more is rounded, and said to be."""
    thousandths = round(1000 * number)
    text = f"{thousandths // 1000}.{thousandths % 1000:03}".rstrip("0").rstrip(".")
    return text if thousandths == 1000 * number else f"about {text}"


def percent_text(percent):
    """A percentage with one decimal, rounded up."""
    tenths = ceil(10 * percent)
    return f"{tenths // 10}.{tenths % 10} %"


def as_text(fineness):
    """What is said of a rate."""
    if fineness.speed is None:
        return f"rate {fineness.number}: no cross-over speed, never too much"
    above = f"at most {percent_text(fineness.percent)} too much" if fineness.percent else "never too much"
    pulses = f"{decimal(fineness.pulses)} pulses an interval"
    return f"rate {fineness.number}: cross-over speed {fineness.speed} m/h, {pulses}, {above}"


def nearest_text(rates, constant, most):
    """The nearest constants for which each rate is so fine, as a line says it."""
    if is_fine(rates, constant, most):
        return f"at most {decimal(most)} % for each rate: {constant} itself"
    down, up = nearest(rates, constant, most)
    return f"at most {decimal(most)} % for each rate: {down or 'none'} down, {up or 'none'} up"
