"""What stands on a form and on a report, part by part; both are printed as text and as a page from the same parts."""

import datetime
from decimal import Decimal

from heglorwy.fineness import decimal, nearest_text, percent_text
from heglorwy.officer.judging import DECIMALS, EQUAL, NOT_READ, OFF, TOO_MANY, WITHIN
from heglorwy.officer.readings import EXACT, QUANTITIES
from heglorwy.officer.sheet import Block, Cell, Facts, Paper, Table
from heglorwy.officer.speaking import spoken_for

UNITS = {"distance": " m", "time": " s"}
SAYS = {EQUAL: "equal", WITHIN: "permitted", OFF: "NOT PERMITTED", NOT_READ: "NOT READ", TOO_MANY: "ONE TOO MANY"}
TO_FILL_IN = [
    "Date of the verification", "Office", "Officer", "Place", "Vehicle", "Instruments",
    "Software identification that the meter shows", "Seals put on",
]
DIGITS = 8  # of a digest, between blanks


def grouped(digest):
    """A digest in groups that a line may be broken between."""
    return " ".join(digest[at : at + DIGITS] for at in range(0, len(digest), DIGITS))


def as_text(units, decimals, sign=""):
    if units is None:
        return ""
    return f"{Decimal(units).scaleb(-decimals):{sign if units else ''}.{decimals}f}"


class Writer:
    """Writes values of hirings as text."""

    def __init__(self, decimals):
        self.decimals = decimals

    def units(self, name, units, sign=""):
        if units is None:
            return ""
        if name not in (*QUANTITIES, "supplements"):
            return str(units)
        return as_text(units, DECIMALS.get(name, self.decimals), sign) + UNITS.get(name, "")

    def off(self, value):
        """The difference; of what is no number, nothing."""
        if None in (value.shown, value.expected) or isinstance(value.expected, str):
            return ""
        return self.units(value.name, value.shown - value.expected, "+")

    def cells(self, value):
        """The cells of a value: what was read, what was expected, the difference, what is permitted, and what of it."""
        permitted = "exact" if value.permitted is None else self.units(value.name, value.permitted)
        bad = value.state not in (EQUAL, WITHIN)
        return [
            Cell(value.name), Cell(self.units(value.name, value.shown), bad),
            Cell(self.units(value.name, value.expected)), Cell(self.off(value), bad),
            Cell(permitted if value.expected is not None else ""), Cell(SAYS[value.state], bad),
        ]

    def failure(self, hiring, value):
        """A failing value in words."""
        where = f"hiring {hiring.number}" + (f" ({hiring.drive})" if hiring.drive else "")
        if value.state == TOO_MANY:
            return f"{where}: a reading too many: {value.name} {self.units(value.name, value.shown)}"
        if value.state == NOT_READ:
            return f"{where}: {value.name} {were_not(value.name)} read"
        shown, expected = (self.units(value.name, units) for units in (value.shown, value.expected))
        off = self.off(value)
        permitted = f"permitted {self.units(value.name, value.permitted)}"
        permitted = "and nothing else is permitted" if value.permitted is None else permitted
        return f"{where}: {value.name} {shown}, expected {expected}{': ' + off if off else ''}, {permitted}"


def failures_of(judged):
    """Each value that isn't as it should be. A hiring that wasn't read at all is told once."""
    writer = Writer(judged.decimals)
    for hiring in judged.hirings:
        if not hiring.was_driven:
            yield f"hiring {hiring.number} ({hiring.drive}): it wasn't driven as the list says"
        for value in hiring.values:
            if value.state == OFF or value is hiring.values[0] and not hiring.was_read or (
                value.state == NOT_READ and hiring.was_read
            ):
                yield writer.failure(hiring, value)


def were_not(name):
    return "weren't" if name == "supplements" else "wasn't"


def not_read(judged):
    """What wasn't read, and in how many hirings."""
    for name in EXACT:
        values = (value for hiring in judged.hirings for value in hiring.values)
        if count := sum((value.name, value.state) == (name, NOT_READ) for value in values):
            yield f"{name} {were_not(name)} read in {count} hiring{'s' * (count > 1)}"


def result_of(judged):
    count, bad = len(judged.hirings), sum(not hiring.passes for hiring in judged.hirings)
    equal = sum(all(value.state == EQUAL for value in hiring.values) for hiring in judged.hirings)
    if bad:
        return "; ".join([f"NOT PASSED: {bad} of {count} readings", *not_read(judged)])
    return f"PASSED: {count} of {count} readings, {equal} of them equal to what was expected"


def report_table(judged):
    """The rows of the report: one for each value, and a reading's rows together."""
    writer, rows = Writer(judged.decimals), []
    for hiring in judged.hirings:
        about = f"{hiring.kind}{' ' + hiring.remark if hiring.remark else ''}"
        for at, value in enumerate(hiring.values):
            height = 0 if at else len(hiring.values)
            number = Cell(str(hiring.number), not hiring.passes, height)
            drive = Cell(f"{hiring.drive} {about}".strip(), False, height)
            rows.append([number, drive, *writer.cells(value)])
    columns = ["no.", "drive", "value", "read", "expected", "difference", "permitted", "result"]
    return Table("Readings", columns, rows)


def form_table(judged, is_expected):
    """The rows of the form: a line a hiring, and what is expected where that was asked for."""
    if is_expected:
        table = report_table(judged)
        return table._replace(rows=[[*row[:3], Cell(""), row[4], Cell(""), row[6], Cell("")] for row in table.rows])
    columns = ["no.", "drive", *QUANTITIES[:1], "distance m", "time s", *EXACT, "remark"]
    return Table(
        "Readings", columns,
        [[Cell(str(hiring.number)), Cell(hiring.drive)] + [Cell("")] * (len(columns) - 2) for hiring in judged.hirings],
    )


def verified(judged):
    """What was verified."""
    sealed = judged.sealed
    names = {"taxi": "Taxi", "constant": "Constant", "mode": "Mode", "secured": "Secured", "hold": "Hold"}
    units = {"constant": " pulses a kilometre", "hold": " s"}
    pairs = [(name, sealed[word] + units.get(word, "")) for word, name in names.items()]
    return Facts(
        "What was verified",
        [*pairs, ("Tariff, SHA-256", grouped(sealed["TARIFF"])), ("Its printed form, and the offsets", "at the end")],
    )


def by_what(judged, has_readings):
    """By what it was verified."""
    pairs = [(name, grouped_last(value)) for name, value in judged.version]
    driven = sum(bool(hiring.drive) for hiring in judged.hirings)
    pairs.append(("Drives", f"{len(judged.drives)}, with {driven} hirings; their digests stand below"))
    made = ", made again with the same list" if has_readings else ""
    pairs.append(("Kit", f"{judged.kit.words}{made}" if judged.kit else "none: drives without a list"))
    if has_readings:
        pairs += [("Readings, SHA-256", grouped(judged.readings.digest)), ("Read", judged.readings.how)]
    return Facts("By what", pairs)


def grouped_last(value):
    """A text with its last word in groups where that is a digest."""
    before, _, last = value.rpartition(" ")
    return f"{before} {grouped(last)}".strip() if len(last) == 64 else value


def crossovers(judged, percent):
    """The cross-over speed of each rate, and what mode S may charge too much there; and the nearest constants for which
    that is at most so many percent."""
    pairs = []
    for found in judged.crossovers:
        if found.speed is None:
            said = "none: distance costs nothing"
        elif judged.sealed["mode"] == "double":
            said = f"{found.speed} m/h; mode D charges both"
        else:
            most = f"at most {percent_text(found.percent)} too much" if found.percent else "never too much"
            said = f"{found.speed} m/h, {decimal(found.pulses)} pulses an interval; at an even speed {most}"
        pairs.append((f"Line {found.line}", said))
    if judged.sealed["mode"] == "single":
        pairs.append(("Constants", nearest_text(judged.rates, int(judged.sealed["constant"]), percent)))
    return Facts("Cross-over speeds, and what an even speed may be charged too much", pairs)


def offset_text(words):
    """An offset, and the second from which it holds, as a person reads them."""
    second, offset = map(int, words.split(" "))
    begins = datetime.datetime(1970, 1, 1) + datetime.timedelta(seconds=second)
    sign, (hours, minutes) = "-" if offset < 0 else "+", divmod(abs(offset) // 60, 60)
    return f"{begins:%Y-%m-%d %H:%M} {sign}{hours:02}:{minutes:02}" + (f":{abs(offset) % 60:02}" if offset % 60 else "")


def at_the_end(judged):
    """What stands at the end: drives, offsets and the tariff."""
    numbered = enumerate(judged.form.splitlines(), 1)
    return [
        Facts("Drives, SHA-256", [(drive.name, grouped(drive.digest)) for drive in judged.drives]),
        Block("Local time less UTC, from these times in UTC on", [offset_text(words) for words in judged.offsets]),
        Block("The tariff, in its printed form", [line for _, line in numbered]),
    ]


def filled_in(asked):
    """What the officer fills in by hand; the date where it was given."""
    pairs = [(name, "") for name in TO_FILL_IN]
    if asked.date:
        pairs[0] = (TO_FILL_IN[0], str(asked.date))
    return Facts("To be filled in", [*pairs, ("Signature", "")])


def form_of(judged, asked):
    parts = [
        filled_in(asked), verified(judged), by_what(judged, False), form_table(judged, asked.expected),
        crossovers(judged, asked.percent), *at_the_end(judged),
    ]
    return Paper("Verification form", None, "", [], parts)


def report_of(judged, asked):
    failures = list(failures_of(judged))
    parts = [
        verified(judged), by_what(judged, True), filled_in(asked), spoken_for(judged), report_table(judged),
        crossovers(judged, asked.percent), *at_the_end(judged),
    ]
    return Paper("Verification report", not failures, result_of(judged), failures, parts)


