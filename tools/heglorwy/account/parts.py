"""The account of a trip for its passenger: its head, what happened when, what each line of the tariff charged, and how
that makes the fare. Each figure is one of `explain`, rounded for reading where it says so."""

import hashlib
import itertools
from decimal import ROUND_HALF_UP, Decimal
from fractions import Fraction
from typing import NamedTuple

from heglorwy.explained import local
from heglorwy.meter import first_in
from heglorwy.tables import text_of
from heglorwy.tariff_parts import of_kind

MODES = {"single": "single: each interval of 0.1 s is charged by distance or by time, by whichever is more",
         "double": "double: each interval of 0.1 s is charged by distance and by time"}
ENDS = {"CLOSED": "the driver ended the trip", "EXPIRED": "the trip had lasted ten days, the longest time",
        "ABORTED": "the supply was lost for longer than a trip is held"}
HAPPENINGS = {"stopped": "stopped: nothing is charged from here on", "goes on": "hired again, in the same trip",
              "cleared": "the driver ends the trip", "expired": "the trip has lasted ten days, and ends"}
EXACT = 9  # an amount with more decimals is written as a fraction


class Account(NamedTuple):
    title: str
    head: list  # of names and values
    story: list  # of a date where it is another one, a time, and what happened then
    groups: list  # of a line's text and its rows: how it charged, metres, seconds, money, the exact money
    sums: list  # sentences on the sum of the charges
    fare: list  # of what is counted, and the amount that it comes to where there is one


def rounded(number, decimals):
    """A fraction as a decimal number, rounded half up."""
    number = Fraction(number)
    quotient = Decimal(number.numerator) / Decimal(number.denominator)
    return f"{quotient.quantize(Decimal(1).scaleb(-decimals), ROUND_HALF_UP):f}"


def exactly(number):
    """A fraction as a decimal number where it is one of a few decimals, and else in its lowest terms."""
    scaled = number * 10**EXACT
    if scaled.denominator != 1:
        return f"{number.numerator}/{number.denominator}"
    whole, _, parts = rounded(number, EXACT).partition(".")
    return whole + ("." + parts.rstrip("0") if parts.rstrip("0") else "")


def metres(text):
    return f"{rounded(text, 0 if Fraction(text) >= 10 else 1)} m"


def seconds(text):
    number = Fraction(text)
    if number < 100:
        return f"{rounded(number, 0 if number >= 10 else 1)} s"
    whole = int(rounded(number, 0))
    return f"{whole // 60} min {whole % 60} s"


def name_of(number, text, tables):
    """A supplement by its number, and by the comment behind its line."""
    line = next(line for line in of_kind(tables.lines, "supplement") if line.parts["number"] == number)
    comment = text.split(b"\n")[line.number - 1].partition(b"#")[2].decode(errors="replace").strip()
    return f"supplement {number}" + (f", {comment}" if comment else "")


def all_in(hiring, name):
    """The words of each line of a hiring that begins so."""
    return [words[1:] for words in hiring if words[0] == name]


def head_of(told, meter, asked, number, receipt):
    way, _, time, _ = first_in(told, "DISTANCE")
    return [
        ("Taxi", meter.taxi), ("Constant", f"{meter.constant} pulses a kilometre"), ("Mode", MODES[meter.mode]),
        ("Secured", meter.secured), ("Tariff", asked.tariff.name),
        ("Its SHA-256", hashlib.sha256(meter.tariff).hexdigest()),
        *([("Receipt", f"{receipt['receipt']} of {receipt['roll'].name}")] if receipt else []),
        ("Drive", f"{asked.drive.name}, hiring {number} of those that it closes"),
        ("Start", " ".join(first_in(told, "START"))),
        ("Finish", f"{' '.join(first_in(told, 'FINISH'))}: {ENDS[first_in(told, 'HIRING')[1]]}"),
        ("Distance", f"{metres(way)} ({way} m)"), ("Time counted", f"{seconds(time)} ({time} s)"),
    ]


def said_of(happening, trip, tables, meter):
    """What happened, in words."""
    what, about = happening.what, happening.about
    if what == "hired":
        lines = [f"line {trip.lines['initial'].number} says the hire fee"]
        lines += [f"line {trip.lines['minimum'].number} the minimum fare"] if trip.lines["minimum"] else []
        return f"hired in tariff position {about['P']}, zone {about['Z']}: {' and '.join(lines)}"
    if what == "rate":
        return f"from here on line {about.number} charges"
    if what == "supplement":
        return name_of(about, meter.tariff, tables)
    if what in ("position", "zone"):
        return f"the driver sets {'tariff ' * (what == 'position')}{what} {about}"
    if what in ("lost", "aborted"):
        at, back = local(meter, happening.second), local(meter, about)
        until = f"{back:%H:%M:%S}" if back.date() == at.date() else f"{back:%Y-%m-%d %H:%M:%S}"
        ends = f", and not back within {meter.hold} s: the trip ends as it was" if what == "aborted" else ": not charged"
        return f"supply lost up to {until}{ends}"
    return HAPPENINGS[what]


def story_of(trip, tables, meter):
    """What happened, in the order of time, a row for each second; a date stands where it is another one than above."""
    rows, before = [], None
    for second, happenings in itertools.groupby(trip.story, key=lambda happening: happening.second):
        at = local(meter, second)
        said = "; ".join(said_of(happening, trip, tables, meter) for happening in happenings)
        rows.append((f"{at:%Y-%m-%d}" if at.date() != before else "", f"{at:%H:%M:%S}", said))
        before = at.date()
    return rows


def way_of(way, rate):
    """How a line charged: by distance, or by time below the speed at which both cost the same."""
    if way != "TIME" or not rate["a"]:
        return {"DISTANCE": "by distance", "TIME": "by time", "BOTH": "by distance and by time"}[way]
    speed = Fraction(rate["c"] * rate["b"], rate["e"] * rate["a"]) * Fraction(36, 10)
    return f"by time: slower than {rounded(speed, 1)} km/h, or standing"


def groups_of(told, tables, meter, unit):
    """What each line charged, in the order of the trip, and what was free."""
    rates = {line.number: line for line in of_kind(tables.lines, "rate")}
    groups = {}
    for number, way, long, _, time, _, _, units in all_in(told, "RATE"):
        money = Fraction(int(units), unit)
        row = way_of(way, rates[int(number)].parts), metres(long), seconds(time), rounded(money, tables.decimals + 1), exactly(money)
        groups.setdefault(f"line {number}: {text_of(meter.tariff, rates[int(number)])}", []).append(row)
    free = [("stopped", metres(long), seconds(time), "free", "0") for long, _, time, _ in all_in(told, "STOPPED")]
    free += [("in intervals that a loss of supply cut short", metres(long), "", "free", "0") for long, _ in all_in(told, "DROPPED")]
    return [*groups.items(), *([("not charged", free)] if free else [])]


def sums_of(told, tables, unit):
    """The sum of what was charged, rounded and exact."""
    parts = [Fraction(int(words[-1]), unit) for words in all_in(told, "RATE")]
    whole, more = Fraction(int(first_in(told, "CHARGED")[1]), unit), tables.decimals + 1
    if not parts:
        return ["Nothing was charged for distance and time."]
    if len(parts) == 1:
        return [f"Charged: {rounded(whole, more)}, exactly {exactly(whole)}"]
    return [f"Charged: {' + '.join(rounded(part, more) for part in parts)} = {rounded(whole, more)}, each rounded",
            f"Exactly: {' + '.join(map(exactly, parts))} = {exactly(whole)}"]


def steps_said(above, step, steps, rounding):
    """How many display steps an amount is."""
    number = above / step
    said = exactly(number) if number.denominator == 1 else rounded(number, 2)
    if number.denominator != 1 and Fraction(said).denominator == 1:
        said = f"a little {'more' if number > Fraction(said) else 'less'} than {int(Fraction(said))}"
    begun = "a step counts as it begins" if rounding == "ahead" else "a step counts when it is full"
    return f"{said}; {begun}, so {steps}"


def fare_of(told, tables, meter, unit):
    """How the fare is made: the fee and what it covers, the steps, the minimum, the supplements, the total."""
    more, step = tables.decimals + 1, of_kind(tables.lines, "step")[0].parts
    numbers = {line.number: text_of(meter.tariff, line) for line in tables.lines}
    charged = Fraction(int(first_in(told, "CHARGED")[1]), unit)
    line, fee, covers = first_in(told, "FEE")
    initial, _, steps, _, amount = first_in(told, "CALC")
    above = max(Fraction(0), charged - Fraction(covers))
    yield f"hire fee, line {line}: {numbers[int(line)]}", fee
    yield (f"it covers the first {covers}: {rounded(charged, more)} - {covers} = {rounded(above, more)} is above it" if above
           else f"it covers the first {covers}, and so all that was charged"), ""
    if above:
        said = steps_said(above, Fraction(amount), steps, step["rounding"])
        yield f"{rounded(above, more)} / {amount}, a display step, is {said}", ""
    yield "hire fee and display steps", f"{initial} + {steps} x {amount}"
    if minimum := first_in(told, "MINIMUM"):
        yield f"minimum fare, line {minimum[0]}: {numbers[int(minimum[0])]}", f"at least {minimum[1]}"
    if Fraction(initial) + int(steps) * Fraction(amount) > Fraction(first_in(told, "FARE")[0]):
        yield "no fare is more than the display has room for", ""
    yield "FARE", first_in(told, "FARE")[0]
    for number, count, _, each in all_in(told, "SUPPLEMENT"):
        yield name_of(int(number), meter.tariff, tables), f"{count} x {each}"
    yield "SUPPLEMENTS", first_in(told, "SUPPLEMENTS")[0]
    yield f"TOTAL, {first_in(told, 'FARE')[0]} + {first_in(told, 'SUPPLEMENTS')[0]}", first_in(told, "TOTAL")[0]


def in_order_of_trip(told, trip):
    """What `explain` says of a hiring, its lines of rates in the order in which they charged first."""
    order = [happening.about.number for happening in trip.story if happening.what == "rate"]
    rates = sorted((words for words in told if words[0] == "RATE"), key=lambda words: order.index(int(words[1])))
    return [words if words[0] != "RATE" else rates.pop(0) for words in told]


def account_of(number, trip, told, tables, meter, asked, receipt):
    """The account of a hiring, by its trip and what `explain` says of it."""
    told = in_order_of_trip(told, trip)
    unit = int(first_in(told, "CHARGED")[3]) * 10**tables.decimals
    title = f"The fare of taxi {meter.taxi} on {first_in(told, 'START')[0]}: {first_in(told, 'TOTAL')[0]}"
    title += f" {asked.currency}" if asked.currency else ""
    return Account(title, head_of(told, meter, asked, number, receipt), story_of(trip, tables, meter),
                   groups_of(told, tables, meter, unit), sums_of(told, tables, unit), list(fare_of(told, tables, meter, unit)))
