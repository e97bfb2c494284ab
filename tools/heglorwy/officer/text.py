"""A paper as text."""

from heglorwy.officer.sheet import Facts, Table

NAMES = 30  # columns of the names of facts
LINE = "________________________________"


def facts(part):
    for name, value in part.pairs:
        if len(name) < NAMES:
            yield f"  {name + ':':<{NAMES}} {value or LINE}"
        else:
            yield from (f"  {name}:", f"  {'':<{NAMES}} {value or LINE}")


def table(part):
    """The rows of a table in columns; the first of them to the left, and a mark before a row with a bad cell."""
    rows = [[cell.text if cell.rows else "" for cell in row] for row in part.rows]
    widths = [max(map(len, column)) for column in zip(part.columns, *rows)]
    if rows:
        widths = [max(width, 0 if any(column) else BLANK) for width, column in zip(widths, zip(*rows))]
    yield "    " + written(part.columns, widths)
    for cells, row in zip(rows, part.rows):
        if cells[0]:
            yield ""
        mark = ">>" if any(cell.is_bad for cell in row[2:]) else ""
        shown = [text or "_" * width if blank else text for text, width, blank in zip(cells, widths, blanks(part.rows))]
        yield f"{mark:<4}" + written(shown, widths)


BLANK = 6  # columns of a cell that is to be filled in


def blanks(rows):
    """Which columns are to be filled in: those in which nothing stands."""
    return [not any(row[at].text for row in rows) for at in range(len(rows[0]))]


def written(cells, widths):
    left = 3  # the number, the drive and the value stand to the left
    return "  ".join(
        f"{cell:<{width}}" if at < left else f"{cell:>{width}}" for at, (cell, width) in enumerate(zip(cells, widths))
    ).rstrip()


def block(part):
    yield from (f"  {line}" for line in part.lines)


def as_text(paper):
    """The paper, line by line."""
    lines = [paper.title, ""]
    if paper.result:
        lines += [paper.result, *(f"  - {failure}" for failure in paper.failures), ""]
    for part in paper.parts:
        write = facts if isinstance(part, Facts) else table if isinstance(part, Table) else block
        lines += [part.heading, *write(part), ""]
    return "".join(f"{line.rstrip()}\n" for line in lines)
