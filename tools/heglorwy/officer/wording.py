"""The printed form of a tariff, by docs/TARIFF.md, from lines as tools/heglorwy/tariff.py reads them."""

from heglorwy.tables import money
from heglorwy.tariff_kinds import DAYS


def tenths(measure):
    return f"{measure // 10}.{measure % 10}"


def minute(number):
    return f"{number // 60:02}:{number % 60:02}"


def month_date(pair):
    return f"{pair[0]:02}-{pair[1]:02}"


def days(first, last):
    names = [DAYS[day - 1] for day in (first, last)]
    return names[0] if first == last else "..".join(names)


ATOMS = {
    "position": lambda number: f"position {number}", "zone": lambda number: f"zone {number}",
    "minute": lambda first, last: f"time {minute(first)}..{minute(last)}",
    "day": lambda first, last: f"day {days(first, last)}",
    "date": lambda first, last: f"date {month_date(first)}..{month_date(last)}", "holiday": lambda: "holiday",
    "distance": lambda measure: f"after {tenths(measure)} m",
    "time of trip": lambda measure: f"after {tenths(measure)} s",
}
RANKS = {"or": 1, "and": 2, "not": 3}


def condition(node, above=0):
    """A condition, in parentheses where it would read differently without them."""
    kind, *inner = node
    if kind in ATOMS:
        return ATOMS[kind](*inner)
    rank = RANKS[kind]
    if kind == "not":
        return f"not {condition(inner[0], rank)}"
    text = f"{condition(inner[0], rank)} {kind} {condition(inner[1], rank + 1)}"
    return f"({text})" if rank < above else text


HEADS = {
    "step": lambda parts, as_money: f"{as_money('amount')} {parts['rounding']}",
    "positions": lambda parts, as_money: str(parts["number"]),
    "zones": lambda parts, as_money: str(parts["number"]),
    "holiday": lambda parts, as_money: "{:04}-{:02}-{:02}".format(*parts["date"]),
    "supplement": lambda parts, as_money: f"{parts['number']} {as_money('amount')} max {parts['most']}",
    "initial": lambda parts, as_money: f"{as_money('amount')} covers {as_money('covers')}",
    "minimum": lambda parts, as_money: as_money("amount"),
    "rate": lambda parts, as_money: f"{as_money('a')} per {tenths(parts['b'])} m, "
    f"{as_money('c')} per {tenths(parts['e'])} s",
}


def line(said, decimals):
    """A line of the printed form."""
    head = HEADS[said.kind](said.parts, lambda name: money(said.parts[name], decimals))
    return f"{said.kind} {head}" + (f" when {condition(said.when)}" if said.when else "")


def form(lines, decimals):
    """The printed form of a tariff, as bytes."""
    return "".join(f"{text}\n" for text in [f"decimals {decimals}", *(line(said, decimals) for said in lines)]).encode()
