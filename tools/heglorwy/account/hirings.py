"""The hirings of a drive, as a walk through it finds them and as `explain` says them, and the one that a receipt is of."""

import hashlib
import itertools

from heglorwy.explained import explained
from heglorwy.meter import hirings_of
from heglorwy.program import Differs, Refused
from heglorwy.account.walk import Walk
from heglorwy.roll import receipts_of

# What a receipt says of the meter, and what that is called.
OF_METER = {"taxi": "taxi", "constant": "constant", "secured": "date of securing"}


def hirings_told(taxi, meter, tables, drive):
    """The trips of a drive beside what `explain` says of each; both are the same to the byte."""
    said = hirings_of(taxi, meter, drive)
    trips = Walk(tables, meter).go(drive)
    if len(trips) != len(said):
        raise Differs(f"explain tells {len(said)} hirings, where {len(trips)} were found")
    for number, (trip, lines) in enumerate(zip(trips, said), 1):
        for told, found in itertools.zip_longest(map(" ".join, lines), explained(number, trip, tables, meter)):
            if told != found:
                raise Differs(f"hiring {number}: explain says {told!r}, where {found!r} was found")
    return list(zip(trips, said))


def fields_of(lines):
    """What `explain` says of a hiring, by the names of the fields of a receipt."""
    words = {line[0]: line[1:] for line in lines}
    initial, _, steps, _, step = words["CALC"]
    return {"kind": words["HIRING"][1], "start": " ".join(words["START"]), "finish": " ".join(words["FINISH"]),
            "position": int(words["POSITION"][0]), "distance": words["DISTANCE"][0], "initial": initial, "steps": int(steps),
            "step": step, **{name: words[name.upper()][0] for name in ("fare", "supplements", "total")}}


def unlike(asked, meter, receipt):
    """Why a receipt isn't of this meter and tariff, if it isn't."""
    if receipt["tariff"] != (digest := hashlib.sha256(meter.tariff).hexdigest()):
        return f"its tariff has the SHA-256 {receipt['tariff']}, and {asked.tariff} has {digest}"
    for field, what in OF_METER.items():
        if receipt[field] != getattr(meter, field):
            return f"its {what} is {receipt[field]}, and that of {asked.params} is {getattr(meter, field)}"
    return None


def place_of(asked, meter, told):
    """The number of the hiring, from 1, of which the roll that was asked for has the receipt. A roll may have receipts of
    one number and with other texts; then one of them has to be a hiring's."""
    receipts = [one.fields for one in receipts_of([asked.roll]) if one.fields["receipt"] == asked.receipt]
    if not receipts:
        raise Refused(1, f"{asked.roll} has no receipt {asked.receipt}")
    alike, why = [], "none has its start, finish, distance, calculation and total"
    for receipt in receipts:
        if other := unlike(asked, meter, receipt):
            why = other
            continue
        for number, (_, lines) in enumerate(told, 1):
            fields = fields_of(lines)
            if fields == {field: receipt[field] for field in fields}:
                alike.append(number)
    if not alike:
        raise Refused(1, f"receipt {asked.receipt} is none of the drive's hirings: {why}")
    if len(alike) > 1:
        numbers = ", ".join(map(str, alike))
        raise Refused(1, f"the hirings {numbers} are all as receipt {asked.receipt} says: name one by --hiring")
    return alike[0]
