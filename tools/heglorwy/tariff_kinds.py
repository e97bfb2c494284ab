"""The kinds of lines of a tariff, in one table: what stands behind the word of each in the printed form."""

from typing import Callable, NamedTuple

LARGEST_FARE = 99_999_999  # of a fare on a receipt, in units of the last decimal
DAYS = ["mon", "tue", "wed", "thu", "fri", "sat", "sun"]


class Kind(NamedTuple):
    form: Callable  # takes the tokens behind the word from a reader of tariff.py, and answers the parts
    amounts: tuple = ()  # the parts that are amounts of money
    measures: tuple = ()  # the parts that are metres or seconds
    row: tuple = ()  # its row of `tables`: the word, and the parts behind the number
    is_on_receipts: bool = False  # a line of a receipt tells its amount, if it isn't 0


def counted(line):
    return {"number": line.number()}


def supplement(line):
    number, amount = line.number(), line.money()
    line.need("max")
    return {"number": number, "amount": amount, "most": line.number()}


def initial(line):
    amount = line.money()
    line.need("covers")
    return {"amount": amount, "covers": line.money()}


def rate(line):
    a, b = line.per("m")
    line.need(",")
    c, e = line.per("s")
    return {"a": a, "b": b, "c": c, "e": e}


KINDS = {
    "step": Kind(lambda line: {"amount": line.money(), "rounding": line.take()}, ("amount",)),
    "positions": Kind(counted), "zones": Kind(counted), "holiday": Kind(lambda line: {"date": line.date()}),
    "supplement": Kind(supplement, ("amount",)),
    "initial": Kind(initial, ("amount", "covers"), row=("INITIAL", "amount", "covers")),
    "rate": Kind(rate, ("a", "c"), measures=("b", "e")),
    "minimum": Kind(lambda line: {"amount": line.money()}, ("amount",), row=("MINIMUM", "amount"), is_on_receipts=True),
}
# The kinds of which a cell has a line, in the order of its columns.
IN_CELLS = ["rate", "initial", "minimum"]
ON_RECEIPTS = [word for word, kind in KINDS.items() if kind.is_on_receipts]
