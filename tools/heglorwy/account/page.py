"""The account of a trip as text, and as pages that print on A4."""

import html
import textwrap

WIDTH = 100  # letters of a line of text
STYLE = """@page { size: A4; margin: 15mm; }
body { font: 9pt/1.25 sans-serif; color: #111; max-width: 180mm; margin: 0 auto; }
article { break-after: page; }
article:last-child { break-after: auto; }
h1 { font-size: 14pt; margin: 0 0 2mm; }
h2 { font-size: 10.5pt; margin: 3mm 0 1mm; border-bottom: 0.3mm solid #888; }
dl { display: grid; grid-template-columns: 28mm 1fr; margin: 0; gap: 0 3mm; }
dt { color: #555; }
dd { margin: 0; overflow-wrap: anywhere; }
table { border-collapse: collapse; width: 100%; }
th, td { text-align: left; padding: 0.1mm 3mm 0.1mm 0; vertical-align: top; font-weight: normal; }
thead th { color: #555; }
th.line { font-family: monospace; font-size: 8.5pt; padding-top: 1mm; }
td.number, th.number { text-align: right; white-space: nowrap; padding-right: 0; padding-left: 3mm; }
td.exact, th.exact { overflow-wrap: anywhere; padding-left: 5mm; width: 40mm; }
tr.sum td { font-weight: bold; }
p { margin: 1mm 0; overflow-wrap: anywhere; }
@media screen { body { padding: 5mm 3mm; } }
@media screen and (max-width: 600px) {
  body { font-size: 11pt; }
  dl { grid-template-columns: 1fr; }
  dd { margin-bottom: 1mm; }
  .charged thead { display: none; }
  .charged tr { display: flex; flex-wrap: wrap; gap: 0 4mm; margin-bottom: 1mm; }
  .charged td:first-child { flex-basis: 100%; }
  .charged td { padding: 0; width: auto; text-align: left; }
}
"""
NOTE = ("Times are those of the meter's clock, and between two readings of it those that the counted time comes to. Metres, "
        "times and money are rounded for reading; the fare is made of the exact amounts.")
COLUMNS = ["metres", "time", "money", "exactly"]


def wrapped(text, first, behind):
    return textwrap.wrap(text, WIDTH, initial_indent=first, subsequent_indent=behind, break_on_hyphens=False)


def text_rows(account):
    """The lines of an account."""
    yield from [account.title, ""]
    for name, value in account.head:
        yield from wrapped(value, f"{name + ':':<14}", " " * 14)
    yield from ["", "The trip"]
    for date, time, what in account.story:
        yield from wrapped(what, f"  {date:<10}  {time}  ", " " * 22)
    yield from ["", f"{'What was charged':<50}" + "".join(f"{name:>12}" for name in COLUMNS[:3]) + f"  {COLUMNS[3]}"]
    for name, rows in account.groups:
        yield from wrapped(name, "  ", "      ")
        for way, *cells, exact in rows:
            yield f"    {way:<46}" + "".join(f"{cell:>12}" for cell in cells) + f"  {exact}"
    for sentence in account.sums:
        yield from wrapped(sentence, "  ", "      ")
    yield from ["", "The fare"]
    for what, amount in account.fare:
        *lines, last = wrapped(what, "  ", "      ")
        yield from lines
        yield f"{last:<76}{amount:>24}".rstrip() if len(last) <= 76 else f"{last}  {amount}".rstrip()
    yield from ["", *wrapped(NOTE, "", "")]


def clean(text):
    """A text in which each letter can be shown: names of files and comments of tariffs may have others."""
    return "".join(letter if letter.isprintable() or letter == "\n" else "?" for letter in text)


def as_text(accounts):
    """The accounts one behind the other."""
    return clean("\n\n".join("".join(f"{line}\n" for line in text_rows(account)) for account in accounts))


def cell(text, kind="", name="td"):
    return f"<{name}{f' class={kind}' * bool(kind)}>{html.escape(text)}</{name}>"


def charged_rows(account):
    """The table of what was charged."""
    columns = "".join(cell(name, "exact" if name == COLUMNS[3] else "number", "th") for name in COLUMNS)
    yield f'<table class="charged"><thead><tr><th></th>{columns}</tr></thead>'
    for name, rows in account.groups:
        yield f'<tr><th class="line" colspan="5">{html.escape(name)}</th></tr>'
        for way, *cells, exact in rows:
            # A fraction is for whoever reckons it again, and stands in the text alone.
            exact = "" if "/" in exact else exact
            yield f"<tr>{cell(way)}{''.join(cell(text, 'number') for text in cells)}{cell(exact, 'exact')}</tr>"
    yield "</table>"
    yield from (f"<p>{html.escape(sentence)}</p>" for sentence in account.sums if "/" not in sentence)


def article(account):
    """The page of an account."""
    head = "".join(f"<dt>{html.escape(name)}</dt><dd>{html.escape(value)}</dd>" for name, value in account.head)
    yield f"<article><h1>{html.escape(account.title)}</h1>\n<dl>{head}</dl>\n<h2>The trip</h2>\n<table>"
    yield from (f"<tr>{cell(date)}{cell(time)}{cell(what)}</tr>" for date, time, what in account.story)
    yield "</table>\n<h2>What was charged</h2>"
    yield from charged_rows(account)
    yield "<h2>The fare</h2>\n<table>"
    for what, amount in account.fare:
        is_sum = what.split(",")[0] in ("FARE", "SUPPLEMENTS", "TOTAL")
        yield f"<tr{' class=sum' * is_sum}>{cell(what)}{cell(amount, 'number')}</tr>"
    yield f"</table>\n<p>{html.escape(NOTE)}</p>\n</article>"


def as_html(accounts):
    """The accounts as pages that print on A4."""
    title = html.escape(accounts[0].title)
    pages = [row for account in accounts for row in article(account)]
    head = '<!DOCTYPE html>\n<html lang="en"><head><meta charset="utf-8">\n'
    head += f'<meta name="viewport" content="width=device-width, initial-scale=1"><title>{title}</title>\n'
    head += f"<style>\n{STYLE}</style></head><body>"
    return clean("\n".join([head, *pages, "</body></html>", ""]))
