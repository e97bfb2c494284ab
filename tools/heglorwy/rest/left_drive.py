"""The first line of what is left of a drive: for which NUMBER of the store it is, by docs/use/TOOLS.md."""

import re

LINE = re.compile(rb"\A# LEFT FOR NUMBER ([1-9][0-9]{0,15})\r?\n")


def with_number(number, drive):
    """A drive with that first line, in the place of one that it has."""
    return b"# LEFT FOR NUMBER %d\n" % number + LINE.sub(b"", drive)


def number_for(drive):
    """The NUMBER that a store has to have for a drive, or None where its first line names none."""
    found = LINE.match(drive)
    return int(found[1]) if found else None
