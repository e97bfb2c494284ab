"""A paper as a page of HTML that prints on A4."""

from html import escape

from heglorwy.officer.paper import DIGITS
from heglorwy.officer.sheet import Facts, Table

STYLE = """@page { size: A4; margin: 16mm 16mm 18mm
  @bottom-right { content: counter(page) " / " counter(pages); font: 8pt "DejaVu Sans" } }
body { font: 9.5pt "DejaVu Sans", Verdana, sans-serif; max-width: 178mm; margin: auto; color: #000; background: #fff }
h1 { font-size: 16pt; margin: 0 0 3mm } h2 { font-size: 11pt; margin: 6mm 0 1.5mm; break-after: avoid }
.result { border: 0.8mm solid #000; padding: 2mm 3mm; font-size: 12pt; font-weight: bold }
.bad.result { border-width: 1.6mm }
ul { margin: 2mm 0; padding-left: 5mm } li { margin: 0.6mm 0 }
dl { display: grid; grid-template-columns: 52mm auto; gap: 1mm 3mm; margin: 0; align-items: end }
dt { font-weight: bold }
dd { margin: 0; overflow-wrap: anywhere } dd.blank { border-bottom: 0.3mm solid #444; min-height: 7mm }
dd.sign { min-height: 14mm } dd.digest { font: 7pt "DejaVu Sans Mono", monospace }
table { border-collapse: collapse; width: 100%; font-size: 7.5pt } thead { display: table-header-group }
tbody { break-inside: avoid } tbody tr:first-child td { border-top: 0.5mm solid #000 }
td, th { border: 0.2mm solid #666; padding: 0.7mm 1mm; text-align: right }
td.left, th.left { text-align: left; vertical-align: top } td.fill { height: 7mm }
td.bad { font-weight: bold; border: 0.7mm solid #000; background: #ddd }
pre { font: 8pt "DejaVu Sans Mono", monospace; margin: 0; white-space: pre-wrap } pre.columns { columns: 3 }
"""
LEFT = 3  # cells that stand to the left
LONG = 64  # letters of a digest, without blanks
MANY = 12  # lines of a text that stands in columns


def is_digest(value):
    return len(value) > LONG and all(len(word) == DIGITS for word in value.split()[-DIGITS:])


def facts(part):
    yield "<dl>"
    for name, value in part.pairs:
        kind = "digest" if is_digest(value) else "" if value else "blank sign" if name == "Signature" else "blank"
        yield f'<dt>{escape(name)}</dt><dd class="{kind}">{escape(value)}</dd>'
    yield "</dl>"


def cell_of(cell, at, is_blank):
    """A cell of a table; a bad one is marked by its frame and its letters, and by the words beside it."""
    classes = ["left"] * (at < LEFT) + ["bad"] * cell.is_bad + ["fill"] * is_blank
    height = f' rowspan="{cell.rows}"' if cell.rows > 1 else ""
    kind = f' class="{" ".join(classes)}"' if classes else ""
    return f"<td{kind}{height}>{escape(cell.text)}</td>"


def table(part):
    """A table, of which the rows of a reading stay together."""
    kinds = [' class="left"' if at < LEFT else "" for at in range(len(part.columns))]
    heads = "".join(f"<th{kind}>{escape(name)}</th>" for kind, name in zip(kinds, part.columns))
    yield f"<table><thead><tr>{heads}</tr></thead>"
    for number, row in enumerate(part.rows):
        if row[0].rows:
            yield ("</tbody>" if number else "") + "<tbody>"
        is_blank = len(row) > LEFT and not any(cell.text for cell in row[LEFT:])
        cells = "".join(cell_of(cell, at, is_blank) for at, cell in enumerate(row) if cell.rows)
        yield f"<tr>{cells}</tr>"
    yield "</tbody></table>" if part.rows else "</table>"


def block(part):
    kind = ' class="columns"' if len(part.lines) > MANY and max(map(len, part.lines)) < 30 else ""
    yield f"<pre{kind}>{escape(chr(10).join(part.lines))}</pre>"


def as_html(paper):
    """The paper as a page."""
    lines = [
        f'<!DOCTYPE html>\n<html lang="en"><head><meta charset="utf-8"><title>{escape(paper.title)}</title>',
        f"<style>\n{STYLE}</style></head><body>\n<h1>{escape(paper.title)}</h1>",
    ]
    if paper.result:
        lines.append(f'<p class="result{"" if paper.is_good else " bad"}">{escape(paper.result)}</p>')
    if paper.failures:
        lines += ["<ul>", *(f"<li>{escape(failure)}</li>" for failure in paper.failures), "</ul>"]
    for part in paper.parts:
        write = facts if isinstance(part, Facts) else table if isinstance(part, Table) else block
        lines += [f"<section><h2>{escape(part.heading)}</h2>", *write(part), "</section>"]
    return "\n".join([*lines, "</body></html>", ""])
