"""What `fleet check` says of a taxi: the receipts of its roll beside its totals, its seal, and runs that broke off."""

import datetime
import os
from decimal import Decimal

from heglorwy.fleet.marks import BEGUN, DONE, OPENING_TOTALS, ROLL, is_at_work, last_done
from heglorwy.fleet.stores import asked_of, sealed_in, there, totals_in
from heglorwy.program import Differs, Refused, read
from heglorwy.roll import receipts_of
from heglorwy.roll_order import disorder_in

LASTS = 400  # days: `bin/taxi` warns of offsets of which the last begins sooner
GROWING = ["hirings", "fare", "supplements"]
CHECKED = [
    "hirings", "receipts", "fare", "receipts_fare", "supplements", "receipts_supplements", "secured", "last_offset",
    "begun", "held",
]
AT_WORK = {"status": 11, "why": "a run is at work", "begun": "yes"}


def opening_of(folder):
    """The totals before the first run of the roll."""
    path = os.path.join(folder, OPENING_TOTALS)
    if not os.path.exists(path):
        return dict.fromkeys(GROWING, Decimal(0))
    text = read(path)
    try:
        opening = totals_in(text)
        return {name: Decimal(opening[name]) for name in GROWING}
    except (LookupError, ValueError, ArithmeticError):
        raise Refused(7, f"{OPENING_TOTALS} is no text of totals") from None


def receipts_at(folder):
    """The receipts of a taxi's roll."""
    roll = os.path.join(folder, ROLL)
    return receipts_of([roll]) if os.path.exists(roll) else []


def put_back(totals, receipts, row, done):
    """What shows that a store is older than what was driven with it."""
    number, hirings = int(totals["number"]), int(totals["hirings"])
    if row["receipts"] > row["hirings"]:
        yield f"{row['receipts'] - row['hirings']} more receipts than hirings"
    if done and (number < done.number or hirings < done.hirings):
        had = f"were {done.number} and {done.hirings} behind the last drive"
        yield f"NUMBER and HIRINGS are {number} and {hirings}, and {had}"
    newest = max((receipt.fields["receipt"] for receipt in receipts), default=0)
    if newest > number:
        yield f"receipt {newest} is above NUMBER, which is {number}"


def out_of_order(receipts):
    """What shows first that receipts aren't those of one store, as it printed them, and how many more things do."""
    disorder = list(disorder_in(receipts))
    if disorder:
        yield disorder[0] + (f", and {len(disorder) - 1} more such findings" if disorder[1:] else "")


def beside(row):
    """What differs between the receipts and what the totals grew by."""
    more = row["hirings"] - row["receipts"]
    if more > 0:
        yield f"{more} more hirings than receipts"
    elif more == 0 and (row["fare"], row["supplements"]) != (row["receipts_fare"], row["receipts_supplements"]):
        yield "fares or supplements are not those of the receipts"


def of_seal(sealed, asked):
    """What is to be seen to in what a store was sealed with."""
    if asked.tariff and sealed["tariff"] != asked.digest:
        yield "sealed with another tariff"
    secured = datetime.date.fromisoformat(sealed["secured"])
    if secured > asked.today:
        yield f"secured on {secured}, which is still to come"
    if asked.secured and secured < asked.secured:
        yield f"secured on {secured}"
    if sealed["last_offset"] and sealed["last_offset"] < asked.today + datetime.timedelta(days=LASTS):
        yield f"the last offset begins on {sealed['last_offset']}"


def compared(folder, asked):
    """The columns of a taxi, and what is to be seen to."""
    sealed, totals = sealed_in(asked_of(folder, "sealed")), totals_in(asked_of(folder, "totals"))
    opening, receipts = opening_of(folder), receipts_at(folder)
    row = {name: Decimal(totals[name]) - opening[name] for name in GROWING} | {"receipts": len(receipts)}
    for name in ("fare", "supplements"):
        row[f"receipts_{name}"] = sum((Decimal(receipt.fields[name]) for receipt in receipts), Decimal(0))
    older = "; ".join(put_back(totals, receipts, row, last_done(folder)))
    found = [f"{older}: was a copy put back?"] if older else []
    found += [*out_of_order(receipts), *beside(row), *of_seal(sealed, asked)]
    return row | sealed | {"held": totals["held"]}, found


def marks_in(folder):
    """What changes in a folder by a run that comes meanwhile."""
    marks = []
    for name in (BEGUN, DONE, ROLL):
        path = os.path.join(folder, name)
        marks.append(os.stat(path).st_size if os.path.exists(path) else None)
    return marks


def row_of_check(folder, asked, broke_off):
    """The row of a taxi in which no run is at work."""
    found = ["a run broke off"] if broke_off else []
    row = {"begun": "yes" if broke_off else "no"}
    try:
        columns, more = compared(folder, asked)
    except (Refused, Differs) as why:
        if why.status == 125:
            raise
        return row | {"status": why.status, "why": "; ".join([*found, str(why)])}
    found += more
    return columns | row | {"status": 11 if found else 0, "why": "; ".join(found)}


def checked(folder, asked):
    """The row of a taxi. Where a run came meanwhile nothing else is told."""
    there(folder)
    before = marks_in(folder)
    row = AT_WORK if is_at_work(folder) else row_of_check(folder, asked, before[0] is not None)
    return AT_WORK if is_at_work(folder) or marks_in(folder) != before else row
