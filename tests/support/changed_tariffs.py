"""Tariffs that were changed at random, and faults that are put into a sound one."""

import re

from support.built import TOP

PIECES = [
    "and", "or", "not", "(", ")", ",", "..", "22:00", "24:00", "5000.0", "m", "s", "day", "sun", "mon..fri", "holiday",
    "when", "per", "km", "0.205", "1.", ".5", "Rate", "\t", "#", "12-24..01-06", "02-30..03-01", "date", "zone 3",
    "position", "10", "after 5 m", "after 0.0 s", "max", "covers", "behind", "x", "2026-02-29", "999", "\n", "\xff",
    "decimals 2\n", "holiday 2026-1-1\n", "0", "99999999", "1000001", "\r", "step", "initial 3.80\n",
    "rate 0.10 per 1.0 m, 0.10 per 1.0 s\n",
]
BASE = [
    "step 0.20", "positions 2", "zones 2", "holiday 2026-12-25", "supplement 1 1.00 max 4", "initial 3.80",
    "rate 0.10 per 40.0 m, 0.10 per 10.0 s when position 2", "rate 0.20 per 117.4 m, 0.20 per 25.2 s",
]


def primes(lines):
    rates = [
        f"rate 0.20 per {a} m, 0.20 per {b} s when zone 2"
        for a, b in (("99998.3", "99997.9"), ("99996.1", "99995.9"), ("99994.1", "99993.1"))
    ]
    at = next(at for at, other in enumerate(lines) if other.startswith("rate"))
    return [*lines[:at], *rates, *lines[at:]]


def before(line):
    """Puts a line before all others of hire fees."""

    def put(lines):
        at = next(at for at, other in enumerate(lines) if other.startswith("initial"))
        return [*lines[:at], line, *lines[at:]]

    return put


def each(pattern, new):
    return lambda lines: [re.sub(pattern, new, line) for line in lines]


def any_of(form, values):
    return " or ".join(form.format(value) for value in values)


# How each fault is put in; none of them adds or takes away another one.
PLANTS = {
    "NoStep": lambda lines: [line for line in lines if not line.startswith("step")],
    "StepZero": each("^step .*", "step 0.00"),
    "Duplicate": lambda lines: [*lines, "zones 2"],
    "TooManyLines": lambda lines: [*lines, *["minimum 5.00 when zone 1"] * 65],
    "UnknownNumber": before("initial 4.00 when zone 9"),
    "NoDefaultRate": each("25.2 s$", "25.2 s when zone 1"),
    "NoDefaultInitial": each("^initial 3.80$", "initial 3.80 when zone 1"),
    "LineAfterDefault": lambda lines: [*lines, "minimum 5.00", "minimum 6.00"],
    "BadDate": lambda lines: [*lines, "holiday 2027-02-29"],
    "AmountTooBig": lambda lines: [*lines, "supplement 2 10000.01 max 1"],
    "MeasureZero": before("initial 4.00 when after 0.0 m"),
    "NoCommonMeasure": primes,
    "TooManyCuts": before(f"initial 4.00 when {any_of('after {}.0 m', range(1, 17))}"),
    "TooManyCells": lambda lines: each("^positions 2$", "positions 9")(
        before(
            "initial 4.00 when "
            + " or ".join([any_of("time {0:02}:00..{0:02}:30", range(20)), any_of("after {}.0 m", range(1, 9))])
        )(lines)
    ),
}


def texts():
    """The tariffs of the examples and the texts that have each fault."""
    found = [path.read_text() for path in sorted((TOP / "examples").glob("*.tariff"))]
    for block in (TOP / "tools/make/faults.txt").read_text().split("\n\n"):
        if block.startswith("BAD TARIFF"):
            lines = block.split("bad:\n")[1].split("\ngood:")[0].splitlines()
            many = [re.match(r"  (?:\*(\d+) )?(.*)", line) for line in lines]
            found.append("".join(f"{line[2]}\n" * int(line[1] or 1) for line in many))
    return found


def changed(draw, text):
    """A text with some pieces put in, taken out or swapped, lines repeated or taken out, and digits that are others."""
    for _ in range(draw.randint(1, 3)):
        at, how = draw.randrange(len(text) + 1), draw.random()
        lines = text.split("\n")
        if how < 0.25:
            text = f"{text[:at]} {draw.choice(PIECES)} {text[at:]}"
        elif how < 0.4:
            text = text[:at] + text[at + draw.randint(1, 6) :]
        elif how < 0.55:
            lines.insert(draw.randrange(len(lines)), draw.choice(lines))
            text = "\n".join(lines)
        elif how < 0.7:
            del lines[draw.randrange(len(lines))]
            text = "\n".join(lines)
        else:
            at = draw.choice([place for place, letter in enumerate(text) if letter.isdigit()] or [at])
            text = text[:at] + draw.choice("0123456789") + text[at + 1 :]
    return text.encode("latin-1")
