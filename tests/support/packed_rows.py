"""Worked rows, packed for crates/program_tests, which carries them out over files and devices in memory: numbers of eight
bytes, the highest first, and texts, each with its length before it."""

import re
import shlex

from support.worked_rows import STORES, WRITERS, fill, image_of, swapped, text_of

PROGRAMS = {"taxi": b"t", "hiring_log": b"h"}
PUT, LEFT = {"store": b"s", "log": b"l"}, {"store": b"S", "log": b"L"}
# The statuses of calls in which the system fails: files that can't be read, outputs that take nothing.
OF_THE_SYSTEM = {7, 8}
MOST_TICKS = 1_000_000
# Rows that take three to thirteen seconds each without a proof.
SLOW = {
    "drives.rows: many events of one line", "faults.rows: as many lines without a form as there can be",
    "generated.rows: a thousand trips", "tables.rows: the most cells",
}


class LeftOut(Exception):
    """A row of which a file has to be a real one, or that takes long without a proof."""


def ticks_of(drive):
    """The ticks of the lines of many intervals of a drive; of another text mostly none."""
    return sum(int(count) for count in re.findall(rb"(?m)^I \d+ (\d+)\r?$", drive))


def number(count):
    return count.to_bytes(8, "big")


def text(content):
    return number(len(content)) + content


def pieces_of(image):
    """The bytes of a store that aren't zero, as pieces at their places."""
    found = [(match.start(), match[0]) for match in re.finditer(rb"[^\0]+", image)]
    return number(len(found)) + b"".join(number(place) + text(piece) for place, piece in found)


class Packing:
    """A row that is packed: its files as they are now, and its stores as far as they were put."""

    def __init__(self, row, values):
        self.row, self.values, self.files = row, values, {}

    def packed(self, name):
        if name in SLOW:
            raise LeftOut
        acts = [self.call(*act[2:]) if act[0] == "call" else self.put(*act[2:]) for act in self.row.acts]
        acts = [act for act in acts if act]
        return text(name.encode()) + number(len(acts)) + b"".join(acts)

    def put(self, key, block):
        name, _, how = key.partition(" ")
        block = [fill(line, self.values) for line in block]
        if name in STORES:
            return self.put_store(name, block, how)
        old = self.files.get(name)
        self.files[name] = swapped(old, block) if how == "then" else text_of(block, self.row.texts)
        return b""

    def put_store(self, name, block, how):
        """A store anew, with some bytes changed, or as it has to be. Changes of a store are put over what is there."""
        if how == "is":
            return LEFT[name] + pieces_of(image_of(name, block))
        if how == "has":
            raise LeftOut
        size = STORES[name][1]
        if how == "then":
            ones = image_of(name, block, b"\1" * size)
            zeros = image_of(name, block)
            changed = [place for place in range(size) if ones[place] == zeros[place]]
            return PUT[name] + number(len(changed)) + b"".join(number(at) + text(zeros[at : at + 1]) for at in changed)
        return PUT[name] + number(1) + number(0) + text(image_of(name, block))

    def call(self, words, block, status, stays):
        words = shlex.split(fill(words, self.values))
        wanted = text_of([fill(line, self.values) for line in block], self.row.texts)
        status = int(fill(status, self.values))
        if status in OF_THE_SYSTEM or any(word.startswith(("/", ".")) or word in ("taxi.store", "taxi.log") for word in words):
            raise LeftOut
        if sum(ticks_of(self.files.get(word, b"")) for word in words) > MOST_TICKS:
            raise LeftOut
        pieces = re.split(rb"(?<![^\n])\.\.\.\n", wanted)
        may_write = tuple(words[:2]) in WRITERS and not stays
        return b"".join([
            PROGRAMS[words[0]], number(len(words) - 1),
            *(text(word.encode()) + text(self.files.get(word, b"")) for word in words[1:]),
            number(len(pieces) - 1), *map(text, pieces), number(status), number(may_write),
        ])


def packed(cases):
    """The rows of these cases, packed, how many they are, and how many are left out."""
    found, left_out = [], 0
    for row, name, values in cases:
        try:
            found.append(Packing(row, values).packed(f"{row.page.name}: {name}"))
        except LeftOut:
            left_out += 1
    return number(len(found)) + b"".join(found), len(found), left_out
