"""The lines of a tariff as parts, read of its printed form, which `taxi form` prints (docs/TARIFF.md)."""

import re
from typing import NamedTuple

from heglorwy.program import Differs
from heglorwy.tariff_kinds import DAYS, KINDS

TOKENS = re.compile(r"\.\.|[a-z]+|[0-9](?:[0-9:-]|\.(?=[0-9]))*|[(),]")


class Line(NamedTuple):
    number: int
    kind: str  # the word with which it begins
    parts: dict
    when: tuple | None = None


class Tariff(NamedTuple):
    decimals: int
    lines: list


class Reader:
    """The tokens of a line of the printed form, taken one after the other."""

    def __init__(self, line, decimals):
        self.line, self.decimals = line, decimals
        self.tokens = TOKENS.findall(line)

    def take(self):
        if not self.tokens:
            raise Differs(f"the program prints a line that ends too early: {self.line}")
        return self.tokens.pop(0)

    def skips(self, text):
        """Takes this token if it is the next one; tells whether it was."""
        is_there = self.tokens[:1] == [text]
        del self.tokens[:is_there]
        return is_there

    def need(self, text):
        if not self.skips(text):
            raise Differs(f"the program prints a line without {text!r}: {self.line}")

    def number(self):
        return int(self.take())

    def amount(self, decimals):
        """An amount in units of the last decimal."""
        whole, _, parts = self.take().partition(".")
        return int(whole + parts.ljust(decimals, "0"))

    def money(self):
        return self.amount(self.decimals)

    def minute(self):
        hours, minutes = self.take().split(":")
        return 60 * int(hours) + int(minutes)

    def date(self):
        return tuple(map(int, self.take().split("-")))

    def condition(self):
        left = self.term()
        while self.skips("or"):
            left = ("or", left, self.term())
        return left

    def term(self):
        left = self.factor()
        while self.skips("and"):
            left = ("and", left, self.factor())
        return left

    def factor(self):
        if self.skips("not"):
            return ("not", self.factor())
        if self.skips("("):
            inner = self.condition()
            self.need(")")
            return inner
        return ATOMS[self.take()](self)

    def days(self):
        first = DAYS.index(self.take()) + 1
        return ("day", first, DAYS.index(self.take()) + 1 if self.skips("..") else first)

    def range_of(self, name, read):
        first = read()
        self.need("..")
        return (name, first, read())

    def after(self):
        measure = self.amount(1)
        return ("distance" if self.take() == "m" else "time of trip", measure)

    def per(self, unit):
        amount = self.money()
        self.need("per")
        measure = self.amount(1)
        self.need(unit)
        return amount, measure


ATOMS = {
    "position": lambda line: ("position", line.number()), "zone": lambda line: ("zone", line.number()),
    "time": lambda line: line.range_of("minute", line.minute), "date": lambda line: line.range_of("date", line.date),
    "day": Reader.days, "holiday": lambda line: ("holiday",), "after": Reader.after,
}


def line_of(number, text, decimals):
    """What a line of the printed form says."""
    line = Reader(text, decimals)
    word = line.take()
    kind = KINDS[word]
    said = Line(number, word, kind.form(line), line.condition() if line.skips("when") else None)
    if line.tokens:
        raise Differs(f"the program prints more than a line says: {text}")
    return said


def lines_in(text):
    """The lines of a text, each as bytes."""
    lines = text.split(b"\n")
    return lines if lines[-1] else lines[:-1]


def is_filled(line):
    """Whether a line has more than blanks and a comment."""
    return bool(line.partition(b"#")[0].strip(b" \t\r"))


def read_tariff(taxi, text):
    """The tariff that a text says, each line with its number in the text. The text may be one that isn't sound."""
    lines = taxi.well("form", text=text, said="the tariff is refused")
    # The first line of the form says the decimals, also where the text doesn't.
    numbers = [number for number, line in enumerate(lines_in(text), 1) if is_filled(line)]
    numbers = [0] * (len(lines) - len(numbers)) + numbers
    decimals = int(lines[0].removeprefix("decimals "))
    return Tariff(decimals, [line_of(*line, decimals) for line in zip(numbers[1:], lines[1:], strict=True)])
