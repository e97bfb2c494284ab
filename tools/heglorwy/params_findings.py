"""The findings of a text of parameters: each fault that the proved program names, as it seals a store of a folder of
its own, and what was perhaps meant. Behind a fault it is asked again about the text without that line."""

import re
from typing import NamedTuple

from heglorwy.guesses import nearest_word, shown
from heglorwy.program import Differs, Scratch
from heglorwy.proofreading import Finding, without
from heglorwy.tariff import lines_in
from heglorwy.tariff_kinds import KINDS

TARIFF = b"step 0.10\ninitial 3.00\nrate 0.10 per 50.0 m, 0.10 per 10.0 s\n"
# Of each key: what its value is, and an example of its line.
KEYS = {
    "taxi": "1 to 16 characters of A to Z, 0 to 9 and `-`, as taxi HG-0815",
    "constant": "500 to 200000 pulses a kilometre, as constant 10000",
    "mode": "`single` (mode S) or `double` (mode D), as mode single",
    "hold": "0 to 600 seconds, as hold 60",
    "offset": "a second since 1970 and the offset from UTC from then on, both in seconds, as offset 946684800 3600. The "
    "first second is 946684800, and each is greater than the one before; `taxi offsets` prints such lines",
    "secured": "a date of 2000 to 2199, as secured 2026-01-15",
}
TWICE = "an earlier line says `{}` already: leave one of them"
# A line of each key without a fault, for one that is missing.
EXAMPLES = {
    "taxi": b"taxi A\n", "constant": b"constant 10000\n", "mode": b"mode single\n", "hold": b"hold 60\n",
    "offset": b"offset 946684800 3600\n", "secured": b"secured 2026-01-15\n",
}
# What is often written in a line, the group that is meant, and what to write instead; of a key, or of any line.
SLIPS = [
    ("", r"^(\xef\xbb\xbf)", "a byte order mark stands before the text: save it as UTF-8 without one"),
    ("", r"^([ \t]+)", "a line begins with its key, and no blank stands before it"),
    ("", r"^[A-Za-z]+\s*([:=;,])", "between a key and its value stands one blank"),
    ("", r"^[a-z]+(\t| {2,}|\xc2\xa0)", "between a key and its value stands one blank"),
    ("", r"(\s*(?:#|//).*)$", "a comment has a line of its own, which begins with #"),
    ("", r"([ \t]+)$", "no blank stands behind a value"),
    ("mode", r"(?i)\s(s|d|single|double|mode [sd])$", "mode S is written `single`, and mode D `double`"),
    ("taxi", r"\s(.*[a-z].*)$", "the name of a taxi has capital letters alone"),
    ("constant", r"\s([0-9]{1,3}(?:[.,' ][0-9]{3})+)$", "figures are written without marks between thousands, as 10000"),
    ("constant", r"[0-9]([.,][0-9]+)$", "the constant is a whole number of pulses a kilometre"),
    ("constant|hold", r"[0-9]\s*([^0-9\s].*)$", "a figure alone stands behind the key, without a unit"),
    ("offset", r"\s(\+)", "an offset to the east has no sign, as 3600; one to the west has a `-`"),
    ("offset", r"\s(\S*:\S*)", "an offset is in seconds, as 3600 for an hour"),
    ("offset", r"\s([0-9]{4}-[0-9-]+)", "the first figure is a second since 1970, as 946684800 for the first of 2000"),
    ("offset", r"^offset\s+(-?[0-9]{1,6})$", "a second stands before the offset, as offset 946684800 3600"),
    ("secured", r"\s([0-9]{1,4}([./-])[0-9]{1,2}\2[0-9]{1,4})$(?<! [0-9]{4}-[0-9]{2}-[0-9]{2})",
    "a date is year, month and day, as 2026-01-15"),
]  # fmt: skip


class Meant(NamedTuple):
    at: int
    width: int
    said: str


def key_of(text):
    """The key of a line, or the one that is nearest to its first word; None if none is near."""
    found = re.search(r"[A-Za-z]+", text)
    return nearest_word(found[0].lower(), KEYS) if found else None


def looks_like_params(text):
    """Whether the first words of a text's lines are those of parameters, and none is a tariff's."""
    words = [line.decode("latin-1").lstrip("\xef\xbb\xbf \t").partition(" ")[0].lower() for line in lines_in(text)]
    return any(word in KEYS for word in words) and not any(word in KINDS for word in words)


def meant(line):
    """What was perhaps meant by a line at fault: place, width and words."""
    text = line.decode("latin-1").removesuffix("\r")
    key = text.lstrip("\xef\xbb\xbf").partition(" ")[0]
    for of_key, pattern, said in SLIPS:
        found = re.search(pattern, text) if not of_key or key in of_key.split("|") else None
        if found:
            return Meant(found.start(1), len(found[1]), said)
    if key in KEYS:
        return Meant(len(key) + 1, len(text) - len(key) - 1, f"the value of `{key}` is {KEYS[key]}")
    near = key_of(text)
    which = f"is `{near}` meant?" if near else f"the keys are {', '.join(KEYS)}"
    return Meant(0, len(key), f"`{shown(key)}` is no key of parameters; {which}")


def fault_of(taxi, text):
    """The words behind `BAD PARAMS` that the program says of a text; none of one without a fault."""
    printed, status = taxi.call("seal", "tariff", "params", tariff=TARIFF, params=text)
    said = (printed.decode().splitlines() or [""])[-1]
    if status and (status != 9 or not said.startswith("BAD PARAMS ")):
        raise Differs(f"seal ends with {status}, and says {said!r}")
    return said.split(" ")[2:] if status else []


def of_lines(taxi, text):
    """The findings of a text, each fault in the program's turn, and behind a fault those of the text without it."""
    rest, told = text if text.endswith(b"\n") else text + b"\n", set()
    while fault := fault_of(taxi, rest):
        name, where = fault[0], fault[-1].lower()
        if name == "TooLong":
            yield Finding(None, "TooLong: the text has more than 65,536 bytes: leave comments out")
            return
        if name == "Missing":
            if where not in told:
                yield Finding(None, f"Missing: no line says `{where}`: {KEYS[where]}")
            rest += EXAMPLES[where]
            continue
        lines = lines_in(rest)
        of_key = [number for number, line in enumerate(lines, 1) if line.split(b" ")[0] == where.encode()]
        number = of_key[1] if name == "Twice" else int(where)
        line = lines[number - 1]
        one = Meant(0, 0, TWICE.format(where)) if name == "Twice" else meant(line)
        told.add(key_of(line.decode("latin-1")))
        yield Finding(number, one.said, one.at, one.width)
        rest = without(rest, [number]) + b"\n"


def of_params(text):
    """All findings of a text of parameters."""
    with Scratch("taxi") as taxi:
        return list(of_lines(taxi, text))
