"""The folder of a kit, as form and report find it: its list, its drives, and what has to be read of each hiring."""

import argparse
import pathlib
import re

from heglorwy.officer.kit import made
from heglorwy.program import Refused

LIST = "list.txt"
WORDS = re.compile(
    r"(?m)^for [a-z -]+: --seed (\d{1,6}) --fastest (\d{1,3}) --longest (\d{1,5})((?: --(?:bench|days|expiry))*)$"
)
KEYS = {"E": "supplements", "P": "position", "Z": "zone"}
USUAL = {"supplements": 0, "position": 1, "zone": 1, "refused": 0, "receipt": "CLOSED"}
NEAR = 10  # a recorded drive may be off by so many percent
LITTLE = {"distance": 50_000, "time": 200}  # or by so many millimetres and ticks; a fare by three steps


class KitFolder:
    """A kit that was found in a folder: the words that make it; and the kit itself, if it was made again."""

    def __init__(self, words, kit):
        self.words, self.kit = words, kit
        self.drives = kit.drives if kit else []
        self.texts = {drive.name: drive.text for drive in self.drives}


def kit_in(taxi, asked, is_made):
    """The kit in the folder that was asked for; None where there is no list. It is made again for a report, and has to
    have the same list and drives of the same names."""
    folder = pathlib.Path(asked.drive)
    if not (folder / LIST).is_file():
        return None
    text = (folder / LIST).read_text(errors="replace")
    found = WORDS.search(text)
    if not found:
        raise Refused(2, f"{folder / LIST}: it doesn't say by which words the kit was made")
    seed, fastest, longest = map(int, found.groups()[:3])
    flags = {name: f"--{name}" in found[4].split() for name in ("bench", "days", "expiry")}
    words = argparse.Namespace(**{**vars(asked), **flags}, seed=seed, fastest=fastest, longest=longest)
    kit = KitFolder(found[0].partition(": ")[2], made(taxi, words) if is_made else None)
    if is_made:
        compare(folder, text, kit)
    return kit


def compare(folder, text, found):
    """Refuses a folder that isn't as its kit is made."""
    if text != found.kit.text:
        raise Refused(2, f"{folder / LIST}: `tools/verify drives {found.words}` makes another list for this meter")
    names = {path.name for path in folder.glob("*.drive")}
    for name in sorted(names ^ set(found.texts)):
        raise Refused(2, f"{folder / name}: is {'no drive of this kit' if name in names else 'not there'}")


def lines_of(text):
    return [line.split(" ") for line in text.decode("latin-1").splitlines() if line and not line.startswith("#")]


def keys_in(text):
    """The keys and the losses of supply of a drive, in order."""
    return [line for line in text.decode("latin-1").splitlines() if line[:1] == "K" or line == "D"]


def is_near(made, driven, step):
    """Whether what is expected of a recorded drive is near what is expected of the kit's."""
    little = {**LITTLE, "fare": 3 * step}
    return len(made) == len(driven) and all(
        abs(one[name] - other[name]) <= max(most, one[name] * NEAR // 100)
        for one, other in zip(made, driven) for name, most in little.items()
    )


def needs_of(text, expected):
    """Which further columns have to be read of each hiring: those in which something is expected that isn't usual, or
    for which a key is pressed, and the receipt where the supply is lost."""
    needs = [{name for name, usual in USUAL.items() if wanted[name] != usual} for wanted in expected]
    parts, pressed = [], set()
    for word, *rest in lines_of(text):
        if word == "K":
            pressed |= {KEYS[rest[0]]} if rest[0] in KEYS else set()
        elif word == "D":
            pressed.add("receipt")
        if (word, *rest) == ("K", "C"):
            parts.append(pressed)
            pressed = set()
    parts += [pressed] * (len(parts) + 1 == len(needs))  # the last one isn't cleared
    parts = parts if len(parts) == len(needs) else [set().union(pressed, *parts)] * len(needs)
    return [needed | part for needed, part in zip(needs, parts)]
