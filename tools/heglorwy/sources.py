"""What the sources of a crate have that is public, read as `rt fmt` lays it out."""

import re
from typing import NamedTuple

from heglorwy.imports import COMMON, Common, imports_of
from heglorwy.program import Refused

ITEM = re.compile(r"( *)(pub |pub\(crate\) )?(?:unsafe )?(?:const (?=fn)|extern \"C\" )*"
                  r"(fn|struct|enum|trait|type|const|static|impl|ghost(?! use))\b(?: mut)?(.*)")
CLAUSE = re.compile(r" +(?:requires|ensures|ghost)\b")
USES = re.compile(r"^pub use ([\w:]+)::(?:\{(.*?)\}|(\w+));", re.MULTILINE | re.DOTALL)


class Item(NamedTuple):
    """An item of a file: its kind and name, the line where it begins, what stands before it, its signature and clauses,
    the items in its braces, its lines, and whether it is public and nothing stands in its braces."""

    kind: str
    name: str
    at: int
    said: str
    derives: list
    signature: list
    clauses: list
    inside: list
    lines: list
    is_public: bool
    is_empty: bool


class Thing(NamedTuple):
    """A public item, with its whole name, its place, the definitions that its file brings in, and its owner."""

    kind: str
    name: str
    place: str
    said: str
    signature: list
    clauses: list = ()
    is_law: bool = False
    imports: dict = {}
    owner: str = None


class Crate(NamedTuple):
    """A crate: what is said of it, what it stands on, its public things, what it hands on of other crates, and what is
    public without a source."""

    name: str
    said: str
    stands_on: list
    things: list
    handed_on: dict
    missing: list
    has_program: bool


def crates_of(top):
    """The crates of crates.txt in their order, with what each stands on."""
    for line in (top / "crates.txt").read_text().splitlines():
        name, found, below = line.partition("#")[0].partition(":")
        if found:
            yield name.split()[0], below.split()


def first_from(lines, at, is_it):
    """The first line from one on of which something holds, by its number."""
    for number in range(at, len(lines)):
        if is_it(number, lines[number]):
            return number
    raise Refused(1, f"what begins in line {at + 1} has no end")


def ends_of(lines, at, indent, kind):
    """With which line the head of an item ends, and with which the item itself. Behind clauses a brace stands alone, or
    the last of them ends in `;`."""
    if kind in ("const", "static", "type"):
        end = first_from(lines, at, lambda n, line: line.endswith(";") and not lines[n + 1].startswith(indent + " "))
        return end, end
    head = first_from(lines, at, lambda n, line: line.endswith(("{", "}", ";")) or n > at and CLAUSE.match(line))
    if head > at and CLAUSE.match(lines[head]):
        head = first_from(lines, head, lambda n, line: line in (indent + "{", indent + "{}")
                          or line.endswith(";") and not lines[n + 1].startswith(indent + " " * 5))
    if not lines[head].endswith("{"):
        return head, head
    return head, first_from(lines, head, lambda n, line: re.fullmatch(indent + r"\}[;,)]*", line))


def items_of(lines, start=0, indent=""):
    """The items of a file, or of the braces that are opened in the line before `start`."""
    found, said, derives, at = [], [], [], start
    while at < len(lines) and not (indent and lines[at].startswith(indent[4:] + "}")):
        line, end, item = lines[at].strip(), at, ITEM.match(lines[at])
        if line.startswith("///"):
            said.append(line[3:].removeprefix(" "))
        elif line.startswith("#["):
            end = first_from(lines, at, lambda _, line: line.endswith("]"))
            derives += lines[at : end + 1] if line.startswith("#[derive") else []
        elif item and item[1] == indent:
            head, end = ends_of(lines, at, indent, item[3])
            found.append(item_at(item, lines, at, head, end, ("\n".join(said).strip(), derives)))
            said, derives = [], []
        else:
            said, derives = [], []
        at = end + 1
    return found


def item_at(item, lines, at, head, end, before):
    """An item, given the line where it begins, and those with which its head and the item end."""
    kind, indent = item[3], len(item[1])
    own = [line[indent:] for line in lines[at : end + 1]]
    top = own[: head + 1 - at]
    split = next((n for n, line in enumerate(top) if n and CLAUSE.match(line)), len(top))
    signature, clauses = top[:split], top[split:]
    if clauses:
        clauses = clauses[:-1] if clauses[-1] in ("{", "{}") else clauses[:-1] + [clauses[-1].removesuffix(";")]
    else:
        signature[-1] = re.sub(r"\s*(?:\{\}?|;)$", "", signature[-1])
    name = re.match(r"\s*(\w*)", item[4])[1]
    inside = items_of(lines, head + 1, item[1] + "    ") if kind in ("impl", "trait") and end > head else []
    return Item(kind, name, at, *before, [line for line in signature if line], clauses, inside, own, item[2] == "pub ",
                top[-1].endswith("{}"))


def owner_of(item):
    """The trait, if there is one, and the type of which an `impl` says something."""
    head = " ".join(line.strip() for line in item.signature).replace("->", "")
    while re.search(r"<[^<>]*>", head):
        head = re.sub(r"<[^<>]*>", "", head)
    words = re.match(r"(?:unsafe )?impl\s+(?:([\w:]+)\s+for\s+)?&?([\w:]+)", head)
    return (words[1], words[2]) if words else (None, None)


def shown_type(item):
    """A struct or an enum as its page shows it: whole, but for fields that aren't public."""
    lines = item.lines
    if item.kind == "enum" or not any(line.endswith("{") for line in lines):
        return item.derives + lines
    head = next(place for place, line in enumerate(lines) if line.endswith("{")) + 1
    kept, said, hides = lines[:head], [], False
    for line in lines[head:-1]:
        if line.strip().startswith("///"):
            said.append(line)
        elif re.match(r"^    pub (?!\()", line):
            kept, said = kept + said + [line], []
        else:
            said, hides = [], hides or bool(line.strip())
    return item.derives + kept + (["    // private fields"] if hides else []) + [lines[-1]]


def members_of(item, owner, trait=""):
    """The parts of a trait or an `impl` that others see, each with its kind, its words and its signature."""
    for part in item.inside:
        is_seen = item.kind == "trait" or part.is_public
        if part.kind == "ghost":
            if item.kind == "trait":
                yield part, "meaning", part.said, part.lines
        elif part.kind == "fn" and (is_seen or trait and part.clauses):
            by_trait = f"By the trait `{trait}`, and with clauses of its own." if trait and part.clauses else ""
            yield part, "call", part.said or by_trait, part.signature
        elif part.kind in ("const", "type") and is_seen:
            yield part, part.kind, part.said, [part.lines[0]]


def things_in(item, names):
    """What an item of a file has that is public, where `names` are the public names of its crate: the item or a part of
    it, and the thing, without its place and imports."""
    if item.kind == "impl":
        trait, owner = owner_of(item)
        values = [part.lines[0] for part in item.inside if part.kind == "ghost" and part.name == "Value"]
        if owner not in names:
            return
        if trait == "Model":
            yield from ((item, Thing("model", owner, "", "-", values, owner=owner)) for _ in values[:1])
            return
        if trait:
            head = " ".join(line.strip() for line in item.signature)
            yield item, Thing("impl", f"{trait} for {owner}", "", "-", [head], owner=owner)
    elif item.is_public and item.name in names:
        trait, owner = None, item.name
        shown = {"fn": item.signature, "trait": item.signature, "struct": shown_type(item), "enum": shown_type(item)}
        is_law = item.kind == "fn" and item.is_empty and "()" in item.signature[0]
        kind, clauses = ("call", item.clauses) if item.kind == "fn" else (item.kind, ())
        yield item, Thing(kind, owner, "", item.said, shown.get(item.kind, item.lines), clauses, is_law)
    else:
        return
    for part, kind, said, signature in members_of(item, owner, trait):
        clauses = part.clauses if kind == "call" else ()
        yield part, Thing(kind, f"{owner}::{part.name}", "", said, signature, clauses, owner=owner)


def public_names(text):
    """The names that a root file hands out of its own modules, and those of other crates, each with its crate."""
    own, other = set(), {}
    modules = set(re.findall(r"^(?:pub )?mod (\w+);", text, re.MULTILINE))
    for path, many, lone in USES.findall(text):
        for name in (many or lone).replace("\n", " ").split(","):
            name = name.split(" as ")[-1].strip()
            if name and path.split("::")[0] in modules:
                own.add(name)
            elif name:
                other[name] = path
    own.update(item.name for item in items_of(text.split("\n")) if item.is_public)
    return own, other


def definitions_of(text, common):
    """The definitions that a file brings in, each with the crate and the module that has it."""
    # Of a whole module, perhaps under another name, as `Supply as model`, the words stand behind that name.
    return {one.alias or one.name or one.module.split(".")[-1]: one.module.removeprefix("Rattle.")
            for one in map(common.origin, imports_of(text, "ghost"))}


def entries(crate):
    """The things of a crate that have words of their own."""
    return [thing for thing in crate.things if thing.kind not in ("model", "impl")]


def silent(crate):
    """Those of which nothing is said. What only contracts see stands under the words on its trait."""
    return [thing for thing in entries(crate) if not thing.said and thing.kind != "meaning"]


def read_crate(top, name, stands_on):
    """What a crate of a checkout has that is public."""
    folder = top / "crates" / name / "src"
    root = next((folder / file for file in ("lib.rt", "main.rt") if (folder / file).is_file()), None)
    if root is None:
        raise Refused(1, f"{folder}: there is no root file")
    text, common, things = root.read_text(), folder.parent / COMMON, []
    said = "\n".join(line[3:].removeprefix(" ") for line in text.split("\n") if line.startswith("//!"))
    names, handed_on = public_names(text)
    common = Common(name, common.read_text() if common.is_file() else "")
    for path in sorted(folder.rglob("*.rt")):
        if re.search(r"(?:^|_)tests$", path.stem) or "tests" in path.parts:
            continue
        source = path.read_text()
        imports = definitions_of(source, common)
        try:
            items = items_of(source.split("\n"))
        except Refused as why:
            raise Refused(1, f"{path}: {why}") from None
        for item in items:
            for part, thing in things_in(item, names):
                imported = {} if thing.kind in ("model", "impl") else imports
                things.append(thing._replace(place=f"{path.relative_to(top)}:{part.at + 1}", imports=imported))
    missing = sorted(names - {thing.name for thing in things})
    return Crate(name, said, stands_on, things, handed_on, missing, root.name == "main.rt")
