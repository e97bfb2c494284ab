"""Where `and` beside `or` without brackets may be meant otherwise: at `A or B and C`, if A and B ask for things of one kind.
Several `and` of one level are the normal form of a calendar rule, `A and B or C and D`, and are asked nothing."""

import re
from typing import NamedTuple

from heglorwy.tariff import lines_in

SAID = "brackets: `and` binds tighter than `or`, so this reads `{0} or ({1} and ..)`; say by brackets what is meant"
KINDS = {
    **dict.fromkeys(("day", "date", "holiday", "time"), "calendar"), **dict.fromkeys(("position", "zone"), "place"),
    "after": "way",
}  # fmt: skip


class Part(NamedTuple):
    """A part of a condition that `and` and `or` join: one atom, or what stands in brackets."""

    kind: str | None  # what it asks for; None of brackets
    start: int  # its place in the line
    end: int


class Level:
    """What stands between two brackets: parts joined by `and` to terms, and these by `or`."""

    def __init__(self):
        self.terms, self.joined = [[]], []  # joined: the places of each `and`, by term

    def doubtful(self):
        """The single part, the one behind it, and the place of the `and` that takes it in, where that is doubtful."""
        if len(self.joined) != 1:
            return None
        number, place = self.joined[0]
        before = self.terms[number - 1] if number else []
        if len(before) != 1 or before[0].kind is None or before[0].kind != self.terms[number][0].kind:
            return None
        return before[0], self.terms[number][0], place


def levels_of(line, start):
    """Each level of brackets of a condition that begins at a place of its line."""
    open_levels, closed, begins = [Level()], [], None
    words = list(re.finditer(r"[a-z]+|[()]|\S", line[start:]))
    for word in words:
        level, at = open_levels[-1], start + word.start()
        if word[0] == "not" and begins is None:
            begins = at
        elif word[0] == "(":
            level.terms[-1].append(Part(None, at, at))
            open_levels.append(Level())
            begins = None
        elif word[0] == ")":
            closed.append(open_levels.pop())
        elif word[0] == "and":
            level.joined.append((len(level.terms) - 1, at))
        elif word[0] == "or":
            level.terms.append([])
        elif word[0] in KINDS:
            level.terms[-1].append(Part(KINDS[word[0]], at if begins is None else begins, at))
            begins = None
        if word[0] not in ("and", "or", "not", "("):
            end_last(open_levels[-1], start + word.end())
    return closed + open_levels


def end_last(level, end):
    """The last part of a level goes on up to this place."""
    if level.terms[-1]:
        level.terms[-1][-1] = level.terms[-1][-1]._replace(end=end)


def brackets(text, line):
    """The `and` of a line that may be meant otherwise: line, how it reads, place and width; or None."""
    said = lines_in(text)[line.number - 1].partition(b"#")[0].decode("latin-1")
    start = re.search(r"\bwhen\b", said).end()
    for level in levels_of(said, start):
        if found := level.doubtful():
            single, first, place = found
            reads = SAID.format(said[single.start : single.end], said[first.start : first.end])
            return line.number, reads, place, len("and")
    return None
