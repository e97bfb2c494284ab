"""How pictures look: drawn by matplotlib, with text as text, and the same to the byte each time."""

import io
import warnings

import matplotlib
from matplotlib.patches import Rectangle

from heglorwy.program import Refused

VERSION = "3.6.3"  # of matplotlib, by which the pictures in docs/ were drawn
# Eight colours that are told apart by most who see few, and patterns for those who see none.
COLOURS = ["#a6cee3", "#fdbf6f", "#b2df8a", "#fb9a99", "#cab2d6", "#ffff99", "#66c2a5", "#d0d0d0"]
PATTERNS = ["", "////", "\\\\\\\\", "xxxx", "||||", "----", "++++", ".."]
DASHES = ["-", "--", "-.", ":", (0, (6, 1, 1, 1, 1, 1)), (0, (1, 3)), (0, (8, 4)), (0, (3, 1, 3, 3))]
MARKERS = ["o", "s", "^", "D", "v", "X", "P", "*"]
LINES = ["#0072b2", "#d55e00", "#009e73", "#000000", "#cc79a7", "#e69f00", "#56b4e9", "#777777"]
# The fonts that the text is measured in, and those that a reader without them has.
FONTS = {"DejaVu Sans": "Verdana, sans-serif", "DejaVu Sans Mono": "monospace"}

matplotlib.rcParams.update(
    {
        "svg.fonttype": "none", "svg.hashsalt": "taxi", "font.family": "DejaVu Sans", "font.size": 9,
        "hatch.linewidth": 0.5, "axes.titlesize": 9, "axes.titlelocation": "left", "axes.spines.top": False,
        "axes.spines.right": False,
    }
)


def patch(place, size, number, **more):
    """A rectangle in the colour and pattern of a number."""
    return Rectangle(
        place, *size, facecolor=COLOURS[number % len(COLOURS)], edgecolor="#444444", linewidth=0.6,
        hatch=PATTERNS[(number + number // len(COLOURS)) % len(PATTERNS)], **more,
    )


def axes_in(figure, left, top, width, height):
    """Axes at a place in inches, from the upper left corner."""
    whole_width, whole_height = figure.get_size_inches()
    return figure.add_axes(
        [left / whole_width, 1 - (top + height) / whole_height, width / whole_width, height / whole_height]
    )


def write_at(figure, left, top, text, **more):
    """A line of text at a place in inches, from the upper left corner."""
    whole_width, whole_height = figure.get_size_inches()
    return figure.text(left / whole_width, 1 - top / whole_height, text, va="top", **more)


def svg_of(figure):
    """The picture as a text of SVG."""
    made = io.BytesIO()
    with warnings.catch_warnings():
        warnings.simplefilter("error")
        try:
            figure.savefig(made, format="svg", metadata={"Date": None, "Creator": None})
        except UserWarning as warning:
            raise Refused(2, f"the picture can't be drawn: {warning}") from None
    text = made.getvalue()
    for font, others in FONTS.items():
        text = text.replace(f"'{font}'".encode(), f"'{font}', {others}".encode())
    return b"\n".join(line.rstrip() for line in text.split(b"\n"))
