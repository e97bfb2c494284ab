"""The page of the calls that may refuse: each with what is said of that, and its clauses."""

import re

from heglorwy.sources import entries

RESULT = re.compile(r"-> (?:io::)?(Result|Option)<(.*)")
ERROR = re.compile(r"(\w+)>?(?: where\b.*)?$")
# The errors of which the head of the page says for all calls when they come, and what a search answers.
COMMON = {"NoMemory", "LineFull", "Failed", "DeviceFailed", "Ended", "Self"}
SAYS_WHEN = re.compile(r"`\w+|\bNone\b|\b(?:error|status|refus|fail|stop|nothing)", re.IGNORECASE)
HEAD = """# The calls that may refuse

What each call answers other than its value, as its words say, and the clauses by which it is pinned. Calls that
always answer with their value are left out. No call panics. Some answers are the same everywhere:

- **No memory** (`NoMemory`, status 12) is tied to no cause, unless a clause says so; docs/PROMISES.md, "What no
  contract refuses", has each call whose clause says where.
- **A failure outside** (`ReadFault`, `BoardFault`, `DeviceFailed`, `Failed`, statuses 7 and 8) comes only if the
  count of faults of the file or the board rose in that call, by one, or stands at its last value. With each other
  answer no count rose.
- **A full line** (`LineFull`) comes exactly if the text doesn't fit into what is left of the line's 512 bytes, and
  leaves the line. Otherwise the text is appended.
- **A search that finds nothing** answers `None`, exactly if nothing is there.
- **A text or a value that isn't accepted** is answered exactly by its first fault, unless memory ran out. What reads
  pieces answers its fault again in each later call, and changes nothing.
- **The end of a command** (`Ended`) is as the record of the command says, which its clause names."""


def error_of(call):
    """The error that a call may answer: `None` of one that searches, its type of another, and nothing of a third."""
    found = RESULT.search(" ".join(call.signature))
    if not found:
        return None
    inside = ERROR.search(found[2].rstrip())
    return "None" if found[1] == "Option" else inside[1] if inside else "Self"


def says_nothing_of_it(call):
    """Whether a call may refuse, by an error of its own, and no word says when."""
    error = error_of(call) if call.kind == "call" and not call.is_law else None
    return error not in (None, "None", *COMMON) and not SAYS_WHEN.search(call.said)


def row(call):
    """The row of a call: what is said of it, in one line, and the names of its clauses."""
    said = " ".join(call.said.split()).replace("|", "\\|")
    clauses = re.findall(r"^ *ensures (\w+) \{", "\n".join(call.clauses), re.MULTILINE)
    return f"| `{call.name}` | {said} | {', '.join(f'`{clause}`' for clause in clauses) or 'its one clause'} |"


def calls_page(crates):
    """The parts of the page."""
    yield HEAD
    for crate in crates:
        rows = [row(call) for call in entries(crate) if call.kind == "call" and error_of(call)]
        if rows:
            yield f"## `{crate.name}`"
            yield "\n".join(["| Call | What is said of it | Clauses |", "|---|---|---|", *rows])
