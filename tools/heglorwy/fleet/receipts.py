"""The receipts of many taxis in one table, and what is out of order in each roll."""

import os

from heglorwy.fleet.marks import ROLL
from heglorwy.program import Refused
from heglorwy.roll import receipts_of
from heglorwy.roll_order import disorder_in


def receipts_at(folder):
    """The rows of the receipts of a taxi's roll, and a line for each thing in which they aren't in order."""
    if not os.path.isdir(folder):
        raise Refused(7, "there is no such folder")
    roll = os.path.join(folder, ROLL)
    receipts = receipts_of([roll]) if os.path.exists(roll) else []
    return [receipt.fields for receipt in receipts], list(disorder_in(receipts))
