"""The table of commands of a program, as crates/said has it: what `help` lists."""

import collections
import pathlib
import re

TOP = pathlib.Path(__file__).resolve().parents[2]
PROGRAMS = ["taxi", "hiring_log"]

# A row: the command's words, as `mark on DRIVER`, and what it does.
Row = collections.namedtuple("Row", "words what")


def rows_of(program):
    """The rows of a program's table, in its order."""
    text = (TOP / "crates/said/src/table.rt").read_text()
    table = text[text.index(f'    name: "{program}"'):]
    rows = re.findall(r'Command \{\s*words: &\[(.*?)\],\s*does: "(.*?)",', table[:table.index("need_seal")], re.DOTALL)
    return [Row(re.findall(r'"(.*?)"', words), what) for words, what in rows]


def put_or_compare(made, compare):
    """Writes the made files, a text for each path, or says which of them stand otherwise; gives how many these are."""
    differing = 0
    for path, text in made.items():
        if not compare:
            path.parent.mkdir(exist_ok=True)
            path.write_text(text)
        elif not path.is_file() or path.read_text() != text:
            print(f"{path.relative_to(TOP)} is not what is made of its sources")
            differing += 1
    return differing
