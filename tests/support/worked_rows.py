"""The worked rows of examples/rows, as they are written there: examples/rows/README.md says how."""

import itertools
import pathlib
import re

TOP = pathlib.Path(__file__).resolve().parents[2]
ROWS = TOP / "examples/rows"
STORES = {"store": ("taxi.store", 2048), "log": ("taxi.log", 131072)}
WRITERS = {("taxi", "seal"), ("taxi", "run"), ("hiring_log", "file")}
ESCAPE = re.compile(rb"\\(n|r|t|s|\\|x[0-9a-f]{2}|\[([0-9a-f *]*)\]|\((\d+) of \"((?:[^\"\\]|\\.)*)\"\))")
PLAIN = {b"n": b"\n", b"r": b"\r", b"t": b"\t", b"s": b" ", b"\\": b"\\"}
KEY = re.compile(r"^([a-z][a-z._]*)( then| is| has)?:$")
MANY = re.compile(r"\*(?:(\d+)\.\.)?(\d+) (.*)")
COLUMN = re.compile(r"\{([a-z_]+)\}")


class Wrong(Exception):
    """A file of rows that isn't written as it has to be, or a row that differs."""


def bytes_of(word):
    """A byte in hexadecimal, or so many of it: `00*7`."""
    digits, _, times = word.partition("*")
    return int(times or "1") * bytes.fromhex(digits)


def read_escape(found):
    word, several, times, text = found.groups()
    if several is not None:
        return b"".join(map(bytes_of, several.decode().split()))
    if times:
        return int(times) * unescaped(text)
    return PLAIN[word] if word in PLAIN else bytes.fromhex(word[1:].decode())


def unescaped(text):
    return ESCAPE.sub(read_escape, text)


def line_of(text):
    """The bytes of a line: those that are written, and an LF, which a `\\` at the end leaves out."""
    open_end = re.search(r"(?<!\\)(?:\\\\)*\\$", text)
    body = unescaped((text[:-1] if open_end else text).encode())
    return body if open_end else body + b"\n"


def named(name, texts):
    """The bytes of the text with a name, or of a file of examples/."""
    if name in texts:
        return text_of(texts[name], texts)
    if name.startswith("examples/") and (TOP / name).is_file():
        return (TOP / name).read_bytes()
    raise Wrong(f"no text {name}")


def text_of(lines, texts):
    """The bytes of lines. `&NAME` is the text with that name, and `&examples/FILE` that file; `*3 x` is x three times,
    and `*2..5 x` is x with each of these numbers in the place of its `#`."""
    found = b""
    for line in lines:
        many = MANY.match(line)
        if many and many.group(1):
            numbers = range(int(many.group(1)), int(many.group(2)) + 1)
            found += b"".join(text_of([many.group(3)], texts).replace(b"#", b"%d" % number) for number in numbers)
        elif many:
            found += int(many.group(2)) * text_of([many.group(3)], texts)
        elif line.startswith("&"):
            found += named(line[1:], texts)
        else:
            found += line_of(line)
    return found


def swapped(body, lines):
    """A text in which the first piece that is written before each arrow is the one behind it."""
    for line in lines:
        old, _, new = line.partition(" -> ")
        old, new = unescaped(old.encode()), unescaped(new.encode())
        if old not in body:
            raise Wrong(f"has no {old!r}")
        body = body.replace(old, new, 1)
    return body


def image_of(kind, lines, image=None):
    """A store: zeros or another one, and at places the bytes that are written behind them."""
    size = STORES[kind][1]
    image = bytearray(image or bytes(size))
    for piece in ",".join(lines).split(","):
        place, _, digits = map(str.strip, piece.partition(":"))
        found = unescaped(digits[1:-1].encode()) if digits.startswith('"') else b"".join(map(bytes_of, digits.split()))
        if place == "all":
            image[:] = found * size
        elif place:
            image[int(place) : int(place) + len(found)] = found
    if len(image) != size:
        raise Wrong(f"a {kind} has {size} bytes")
    return bytes(image)


def lines_behind(lines):
    """The lines of a block, which stand two blanks further in; those of a table too."""
    block = list(itertools.takewhile(lambda line: line[1].startswith("  ") or line[1] == "  ", lines))
    return [text[2:] for _, text in block], len(block)


class Row:
    """A row or a table of rows: where it stands, its name, and what is to be done."""

    def __init__(self, page, number, name, texts):
        self.page, self.number, self.name, self.texts = page, number, name, texts
        self.shows, self.source, self.acts, self.columns, self.cases = "", "", [], [], []

    def filled(self):
        """Each case of a table, or the row itself."""
        if not self.columns:
            yield self.name, {}
        for at, cells in enumerate(self.cases, 1):
            yield f"{self.name}, case {at}: {' | '.join(cells)}", dict(zip(self.columns, cells))


def cells_of(text):
    return [cell.strip() for cell in f"{text} ".split(" | ")]


def cases_of(block):
    """The cells of each case; a line that stands further in goes on with the case before it."""
    cases = []
    for text in block:
        if text.startswith("  "):
            cases[-1] += " " + text.strip()
        else:
            cases.append(text)
    return list(map(cells_of, cases))


def rows_in(page):
    """The rows of a file, each with the texts that are named before it."""
    lines = list(enumerate(page.read_text().split("\n"), 1))
    texts, source, row, at = {}, "", None, 0
    while at < len(lines):
        number, line = lines[at]
        at += 1
        block, count = lines_behind(lines[at:])
        if not line or line.startswith("#"):
            continue
        word, _, rest = line.partition(" ")
        if word in ("from:", "shows:"):
            rest = " ".join([rest, *block])
        if word == "text":
            texts[rest] = block
        elif word in ("row:", "table:"):
            if row:
                yield row
            row = Row(page, number, rest, texts)
            row.source = source
        elif word == "from:" and row is None:
            source = rest
        elif row is None:
            raise Wrong(f"{page.name}:{number}: stands before the first row: {line}")
        elif word == "from:":
            row.source = rest
        elif word == "shows:":
            row.shows = rest
        elif word == "columns:":
            row.columns = cells_of(rest)
        elif word == "cases:":
            row.cases = cases_of(block)
        elif line.startswith("$ "):
            row.acts.append(["call", number, line[2:], block, "0", False])
        elif word == "status" and row.acts:
            row.acts[-1][4] = rest
        elif line == "stays" and row.acts:
            row.acts[-1][5] = True
        elif KEY.match(line):
            row.acts.append(["file", number, line[:-1], block])
        elif re.match(r"^[a-z._]+ = \S+$", line):
            name, _, text = line.partition(" = ")
            if text not in texts:
                raise Wrong(f"{page.name}:{number}: no text {text}")
            row.acts.append(["file", number, name, texts[text]])
            count = 0
        else:
            raise Wrong(f"{page.name}:{number}: is nothing of a row: {line}")
        at += count
    if row:
        yield row


def fill(text, values):
    def value(found):
        if found.group(1) not in values:
            raise Wrong(f"no column {found.group(1)}")
        return values[found.group(1)]

    return COLUMN.sub(value, text) if values else text


def pages_of(words):
    """The files that words name, as paths or by their names in examples/rows; without words all of these."""
    for word in words or sorted(ROWS.glob("*.rows")):
        there = [path for path in (pathlib.Path(word), ROWS / f"{word}.rows", ROWS / word) if path.is_file()]
        if not there:
            raise Wrong(f"no file of rows is called {word}")
        yield there[0]


def cases_in(words, only=""):
    """Each row of some files, and each case of a table, with its name and the values of its columns."""
    for page in pages_of(words):
        for row in rows_in(page):
            if not row.shows or not row.source or not row.acts:
                raise Wrong(f"{page.name}:{row.number}: what it shows, where that is from or what is done is missing")
            yield from ((row, name, values) for name, values in row.filled() if only in name)
