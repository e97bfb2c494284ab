"""The faults of a tariff, as `taxi faults` prints them, and what each means for its author."""

from typing import NamedTuple

from heglorwy.program import Differs

MOST_BYTES = 65_536
UNITS = {"MonthDay": "dates", "Minute": "times of day", "Distance": "distances", "Time": "times of a trip"}
# Of each fault what it means and how it is mended. docs/TARIFF.md, "Well-formed tariffs", has the rules.
MEANING = {
    "TooLong": f"the text has more than {MOST_BYTES:,} bytes: leave comments out",
    "NoStep": "there is no `step` line: say the display step, as step 0.10 ahead",
    "StepZero": "the display step is 0: say how much the display goes up by, as step 0.10 ahead",
    "Duplicate": "an earlier line says this already: leave one of them. There may be one `step`, `positions` and `zones` "
    "line, one line for each number of a supplement, and one for each date of a holiday",
    "TooManyLines": "there are too many lines of this word: 64 may stand, and 255 holidays. Lines with one amount can be "
    "joined by `or`",
    "UnknownNumber": "this condition names a position or a zone that isn't there: raise `positions` or `zones`, or mend "
    "the number",
    "NoDefaultRate": "each `rate` line has a condition: a last one without any says what else holds",
    "NoDefaultInitial": "each `initial` line has a condition: a last one without any says what else holds",
    "LineAfterDefault": "an earlier line of this word has no condition, so this one never counts: put it above that line",
    "BadDate": "no calendar has this date, or it is a holiday outside of 2000 to 2199",
    "AmountTooBig": "an amount is too large: up to 1,000,000 units of the last decimal (10,000.00 with two decimals), and "
    "up to 99,999,999 in an `initial` or `minimum` line",
    "MeasureZero": "a measure is 0: say another, and for what costs nothing the amount 0, as 0.00 per 50.0 m",
    "NoCommonMeasure": "the least common multiple of all metres and seconds of the rates is above 10^18: take the "
    "tariff that `taxi near` prints, which has the nearest amounts for one pair of measures",
    "TooManyCuts": "the conditions cut the {0} in {1} places, and {2} may be: let lines share their borders",
    "TooManyCells": "there would be {0} cells, and 64,512 may be: they are positions x zones x days x the bands between "
    "the dates, times and distances that conditions name. Take some of these away",
}
MOST_CUTS = {"MonthDay": "63", "Minute": "63", "Distance": "15", "Time": "15"}
# The faults that a line without a form may bring, by the word with which it begins.
BROUGHT_BY = {
    "step": ["NoStep", "StepZero"], "positions": ["UnknownNumber"], "zones": ["UnknownNumber"],
    "rate": ["NoDefaultRate"], "initial": ["NoDefaultInitial"],
}


class Fault(NamedTuple):
    name: str
    line: int | None
    text: str


def fault_of(said):
    """A line `BAD TARIFF ..` of the program as a fault."""
    name, *rest = said.removeprefix("BAD TARIFF ").split(" ")
    if name == "Syntax":
        return Fault(name, int(rest[0]), "")
    if name not in MEANING or not said.startswith("BAD TARIFF "):
        raise Differs(f"the program prints another line than a fault: {said!r}")
    if name == "TooManyCuts":
        return Fault(name, None, MEANING[name].format(UNITS[rest[0]], rest[1], MOST_CUTS[rest[0]]))
    if name == "TooManyCells":
        return Fault(name, None, MEANING[name].format(*rest))
    return Fault(name, int(rest[0]) if rest else None, MEANING[name])


def faults_of(taxi, text):
    """All faults of a text that `taxi faults` names, in its order; none of a sound tariff."""
    printed, status = taxi.call("faults", text=text)
    lines = printed.decode().splitlines()
    if status not in (0, 2) or not lines:
        raise Differs(f"faults ends with {status}")
    return [fault_of(line) for line in lines] if status else []
