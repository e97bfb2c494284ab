"""The receipts of a roll, by the grammar of docs/FORMATS.md, 'Receipts'."""

import collections
import datetime
import re

from heglorwy.tariff_kinds import LARGEST_FARE, ON_RECEIPTS

COLUMNS = ["receipt", "kind", "taxi", "constant", "secured", "tariff", "start", "finish", "position", "distance",
           "initial", "steps", "step", *ON_RECEIPTS, "fare", "supplements", "total"]
WHOLE = ["receipt", "constant", "position", "steps"]

# A receipt: its fields by the names of the columns, its text as it was printed, and the place of the
# roll where it begins.
Receipt = collections.namedtuple("Receipt", "fields text place")

NUMBER = r"(?:0|[1-9][0-9]{0,19})"  # no number of a receipt has more digits
MONEY = NUMBER + r"(?:\.[0-9]{1,3})?"
DAY = r"[0-9]{4}-[0-9]{2}-[0-9]{2}"
STAMP = DAY + r" [0-9]{2}:[0-9]{2}:[0-9]{2}"
LINES = re.compile("".join([

    rf"RECEIPT (?P<receipt>{NUMBER})\n", r"KIND (?P<kind>CLOSED|ABORTED|EXPIRED)\n", r"TAXI (?P<taxi>[A-Z0-9-]{1,16})\n",
    rf"CONSTANT (?P<constant>{NUMBER})\n", rf"SECURED (?P<secured>{DAY})\n", r"TARIFF (?P<tariff>[0-9a-f]{64})\n",
    rf"START (?P<start>{STAMP})\n", rf"FINISH (?P<finish>{STAMP})\n", rf"POSITION (?P<position>{NUMBER})\n",
    rf"DISTANCE (?P<distance>{NUMBER}\.[0-9]{{3}}) m\n",
    rf"CALC (?P<initial>{MONEY}) \+ (?P<steps>{NUMBER}) x (?P<step>{MONEY})\n",
    *(rf"(?:{word.upper()} (?P<{word}>{MONEY})\n)?" for word in ON_RECEIPTS),
    rf"FARE (?P<fare>{MONEY})\n", rf"SUPPLEMENTS (?P<supplements>{MONEY})\n", rf"TOTAL (?P<total>{MONEY})\n", r"END\n",
]).encode())

LARGEST_SUPPLEMENTS = 1_584_000_000


def units(amount):
    return int(amount.replace(".", ""))


def decimals(amount):
    return len(amount.partition(".")[2])


def has_sums(fields):
    """Whether the amounts have one number of decimals and their ranges, and fare and total are as they add up."""
    names = ("initial", "step", *ON_RECEIPTS, "fare", "supplements", "total")
    money = {name: fields[name] for name in names if fields[name]}
    if len({decimals(amount) for amount in money.values()}) != 1:
        return False
    amount = collections.defaultdict(int, {name: units(text) for name, text in money.items()})
    if not (amount["initial"] <= LARGEST_FARE and 1 <= amount["step"] <= 1_000_000 and fields["steps"] < 10**18
            and amount["supplements"] <= LARGEST_SUPPLEMENTS):
        return False
    if any(fields[word] and not 1 <= amount[word] <= LARGEST_FARE for word in ON_RECEIPTS):
        return False
    fare = max(amount["initial"] + fields["steps"] * amount["step"], amount["minimum"])
    return amount["fare"] == min(fare, LARGEST_FARE) and amount["total"] == amount["fare"] + amount["supplements"]


def receipt_of(match):
    """The receipt that the lines are, or None where a number, a date or a sum is none of a receipt."""
    fields = {name: (match[name] or b"").decode() for name in COLUMNS}
    fields |= {name: int(fields[name]) for name in WHOLE}
    try:
        secured = datetime.date.fromisoformat(fields["secured"])
        start, finish = (datetime.datetime.strptime(fields[name], "%Y-%m-%d %H:%M:%S") for name in ("start", "finish"))
    except ValueError:
        return None
    ranged = (1 <= fields["receipt"] <= 2 * 10**15 + 1 and 500 <= fields["constant"] <= 200_000
              and 1 <= fields["position"] <= 9 and 2000 <= secured.year <= 2199
              and 1999 <= start.year <= 2200 and 1999 <= finish.year <= 2200
              and units(fields["distance"]) < 10**23)
    return Receipt(fields, match[0], match.start()) if ranged and has_sums(fields) else None


def receipts_in(roll):
    """The receipts of a roll: at each place the one with which what is left begins, if there is one."""
    place = 0
    while match := LINES.search(roll, place):
        receipt = receipt_of(match)
        place = match.end() if receipt else match.start() + 1
        if receipt:
            yield receipt
