"""What a meter shows and prints of hirings, by the output of `run`."""

import re
from typing import NamedTuple

DISPLAY = re.compile(r"(?:HIRED|STOPPED) T(\d) Z(\d) ")


class Shown(NamedTuple):
    """What was shown and printed of a hiring: money in its smallest units, the distance in millimetres; position and
    zone as they were shown last, and how many events were refused since the hiring before it."""

    kind: str
    fare: int
    distance: int
    supplements: int
    position: int
    zone: int
    refused: int


def units(amount):
    return int(amount.split(" ")[0].replace(".", ""))


def shown_in(printed):
    """What was shown of each hiring of a run. What is refused behind the last one counts to it."""
    found, place, refused, said = [], (1, 1), 0, {}
    for line in printed.splitlines():
        word, _, rest = line.partition(" ")
        said[word] = rest
        if word in ("HIRED", "STOPPED") and (display := DISPLAY.match(line)):
            place = int(display[1]), int(display[2])
        elif word == "REFUSED":
            refused += 1
        elif word == "END":
            amounts = (units(said[name]) for name in ("FARE", "DISTANCE", "SUPPLEMENTS"))
            found.append(Shown(said["KIND"], *amounts, *place, refused))
            refused = 0
    if found and refused:
        found[-1] = found[-1]._replace(refused=found[-1].refused + refused)
    return found
