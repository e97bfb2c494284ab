"""Words that several tools take: of a meter, of a day, and of a place in a tariff."""

import argparse
import datetime
import pathlib
import re
from decimal import Decimal, InvalidOperation
from fractions import Fraction

from heglorwy.program import TOP, read


def tool_parser(tool, said, statuses):
    """A parser of a tool's words: its help is what the tool says of itself, and its statuses."""
    form = argparse.RawDescriptionHelpFormatter
    return argparse.ArgumentParser(prog=tool, description=said, formatter_class=form, epilog=f"Statuses: {statuses}")


def ranged(least, most):
    """A whole number of a range."""

    def read(text):
        if not text.isascii() or not text.isdigit() or not least <= int(text) <= most:
            raise argparse.ArgumentTypeError(f"{text!r} is no number of {least} to {most}")
        return int(text)

    return read


def decimal_of(text, fits, said):
    """A decimal number that fits."""
    try:
        number = Decimal(text)
    except InvalidOperation:
        if re.fullmatch("[0-9]+,[0-9]+", text):
            raise argparse.ArgumentTypeError(f"{text!r} has a comma; decimals have a point, as {text.replace(',', '.')}") from None
        number = Decimal("NaN")
    if not number.is_finite() or not fits(number):
        raise argparse.ArgumentTypeError(f"{text!r} is no number {said}")
    return number


def positive(text):
    """A decimal number above 0."""
    return decimal_of(text, lambda number: 0 < number <= 10**6, "above 0 and up to 1000000")


def percentage(text):
    """A decimal number of 0 to 100, exactly."""
    return Fraction(decimal_of(text, lambda number: 0 <= number <= 100, "of 0 to 100"))


def minute(text):
    """A minute of the day, from an hour as 22 or a time as 22:30."""
    found = re.fullmatch("([01]?[0-9]|2[0-3])(?::([0-5][0-9]))?", text)
    if not found:
        raise argparse.ArgumentTypeError(f"{text!r} is no hour as 22 and no time as 22:30")
    return 60 * int(found[1]) + int(found[2] or 0)


def add_constant(parser):
    parser.add_argument(
        "--constant", type=ranged(500, 200_000), default=10_000, metavar="K",
        help="the constant, in pulses a kilometre (10000)",
    )


def add_params(parser, with_constant=True):
    """A meter's parameters, and a constant in the place of theirs."""
    parser.add_argument(
        "--params", default=TOP / "examples/taxi.params", type=pathlib.Path, metavar="PARAMS",
        help="the secured parameters, as `taxi sealed` prints them (examples/taxi.params)",
    )
    if with_constant:
        parser.add_argument(
            "--constant", type=ranged(500, 200_000), metavar="K", help="the constant, in the place of theirs"
        )


def params_of(asked):
    """The text of the parameters that were asked for."""
    return with_constant(read(asked.params), asked.constant)


def with_constant(text, constant):
    """A text of parameters, with another constant where one is given."""
    return re.sub(rb"(?m)^constant [0-9]+", b"constant %d" % constant, text) if constant else text


def add_place(parser, as_words=True):
    """Words for a tariff position and a zone, or options."""
    for name in ("position", "zone"):
        how = {"nargs": "?", "metavar": name.upper()} if as_words else {"metavar": "N"}
        parser.add_argument(name if as_words else f"--{name}", type=ranged(1, 9), default=1, help=f"the {name} (1)", **how)


def date(text):
    """A day, as 2026-03-02."""
    try:
        return datetime.date.fromisoformat(text if re.fullmatch("[0-9]{4}-[0-9]{2}-[0-9]{2}", text) else "")
    except ValueError:
        raise argparse.ArgumentTypeError(f"{text!r} is no day; year, month and day are written as 2026-03-02") from None


EXAMPLE_DAY = date("2026-03-02")  # a Monday, and no holiday of the examples
