"""The receipts of rolls, as `hiring_log rows` prints them."""

import collections
import csv
import datetime
import io

from heglorwy.program import Refused, Scratch, read

COLUMNS = ["receipt", "kind", "taxi", "constant", "secured", "tariff", "start", "finish", "position", "distance",
           "initial", "steps", "step", "minimum", "fare", "supplements", "total"]
WHOLE = ["receipt", "constant", "position", "steps"]

# A receipt: its fields by the names of the columns, the day on which it finished, and its place among those of its roll.
Receipt = collections.namedtuple("Receipt", "fields finished where")


def receipts_in(path):
    """The receipts of a roll. A row is that of one receipt."""
    with Scratch("hiring_log") as folder:
        printed, status = folder.call("rows", text=read(path))
    if status:
        raise Refused(status, f"{path}: hiring_log rows ends with {status}: {printed.decode().splitlines()[-1:]}")
    for place, row in enumerate(csv.DictReader(io.StringIO(printed.decode())), 1):
        fields = row | {name: int(row[name]) for name in WHOLE}
        yield Receipt(fields, datetime.date.fromisoformat(row["finish"][:10]), f"receipt {place} of {path}")


def receipts_of(paths):
    """The receipts of rolls of one taxi, but those that were there before, as in a roll that is named twice."""
    kept, taxi = {}, None
    for path in paths:
        for place, receipt in enumerate(receipts_in(path), 1):
            taxi = taxi or receipt.fields["taxi"]
            if receipt.fields["taxi"] != taxi:
                raise Refused(4, f"{path}: receipt {place} of the roll, counted from 1, is of another taxi")
            kept.setdefault(tuple(receipt.fields.values()), receipt)
    return list(kept.values())
