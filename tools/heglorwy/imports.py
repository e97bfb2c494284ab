"""What a file of crates/ brings in of definitions and lemmas: by `use` in a .antt file, by `ghost use` in a .rt file. Names
may stand in nested groups, as in `use Rattle.{std.specs.Prelude.{ℕ}, taxi_units.specs.{Time.{last_tick}, Limits.{gap}}}`."""

import re
from typing import NamedTuple

USE = re.compile(r"^([ \t]*)((?:(?:pub|ghost|unfoldable) )*use) (?=[^\s:;]*(?:\.\{|;$|$| as ))", re.M)
COMMENT = re.compile(r"\s(?:--|//).*")
COMMON = "specs/Common.antt"


class Import(NamedTuple):
    """A name of a module, perhaps under another one; without a name the module itself."""

    module: str
    name: str
    alias: str = ""


class Statement(NamedTuple):
    """A `use` statement: where it stands in its text, with what it begins, what it brings in, and whether it has a comment."""

    start: int
    end: int
    indent: str
    words: str
    imports: tuple
    has_comment: bool


def end_of(text, at):
    """Where a statement ends: at the end of the line in which its braces are closed."""
    depth = 0
    while at < len(text) and (depth or text[at] != "\n"):
        depth += {"{": 1, "}": -1}.get(text[at], 0)
        at += 1
    return at


def parts_of(group):
    """What the commas of a group part, but for those of groups in it."""
    depth, parts = 0, [""]
    for sign in group:
        depth += {"{": 1, "}": -1}.get(sign, 0)
        if sign == "," and not depth:
            parts.append("")
        else:
            parts[-1] += sign
    return [part.strip() for part in parts if part.strip()]


def names_in(path, before=""):
    """What a path of a group brings in, or a path with a group behind it."""
    head, has_group, group = path.partition(".{")
    if has_group:
        return [one for part in parts_of(group.rstrip()[:-1]) for one in names_in(part, f"{before}{head.strip()}.")]
    whole, _, alias = path.partition(" as ")
    module, _, name = f"{before}{whole.strip()}".rpartition(".")
    return [Import(module, name, alias.strip())]


def statements(text):
    """The statements of a text in their order, but for plain `use` items of Rust."""
    found = []
    for use in USE.finditer(text):
        end = end_of(text, use.end())
        whole = text[use.end():end]
        path = COMMENT.sub("", whole).strip().removesuffix(";")
        module, _, alias = path.partition(" as ")
        imports = names_in(path) if ".{" in path else [Import(module.strip(), "", alias.strip())]
        found.append(Statement(use.start(), end, use.group(1), use.group(2), tuple(imports), bool(COMMENT.search(whole))))
    return found


def imports_of(text, begins=""):
    """All that a text brings in by statements that begin so."""
    return [one for statement in statements(text) if statement.words.startswith(begins) for one in statement.imports]


class Common:
    """What the file specs/Common.antt of a crate hands on, by its text."""

    def __init__(self, crate, text):
        self.module = f"Rattle.{crate}.specs.Common"
        self.handed_on = {one.name: one for one in imports_of(text)}

    def origin(self, one):
        """A name by the file that has it, if this one only hands it on."""
        found = self.handed_on.get(one.name) if one.module == self.module else None
        return found._replace(alias=one.alias) if found else one
