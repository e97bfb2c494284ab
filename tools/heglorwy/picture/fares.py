"""Fares over the distance for trips that begin at some hours: the steps that the program shows."""

import textwrap

from matplotlib.figure import Figure
from matplotlib.lines import Line2D
from matplotlib.ticker import MaxNLocator

from heglorwy.drives import MARK, MARKED, hired, second_of
from heglorwy.picture.style import DASHES, LINES, MARKERS, axes_in, svg_of
from heglorwy.program import Differs, Refused
from heglorwy.tables import need_place, tables_of

PARTS = 20_000  # into so many parts a drive is parted at most, to see at which distance a display came
MARKS = 6  # of a line, to tell it from others
LETTERS = 28  # of a row of the legend
WIDTH, HEIGHT = 7.0, 3.6


def marked_drive(minute, asked):
    """A drive at a speed, with a mark behind the hiring and behind each interval, or each part of a long drive, and the
    pulses at each mark."""
    drive = hired(second_of(asked.date, minute), asked.constant, asked.position, asked.zone)
    pulses = int(asked.km * asked.constant)
    ticks = max(1, round(pulses * 36_000 / (asked.kmh * asked.constant)))
    parts, marks = min(ticks, PARTS), []
    for part in range(parts + 1):
        marks.append(drive.pulses)
        drive.lines.append(MARK)
        drive.go(pulses * (part + 1) // parts - pulses * part // parts, ticks * (part + 1) // parts - ticks * part // parts)
    return drive, marks


def fares_at(taxi, text, minute, asked):
    """The steps of the fare: the distance in kilometres at which each was first seen, and what was shown from there on."""
    drive, marks = marked_drive(minute, asked)
    fares, shown = [], ""
    for line in taxi.well("fare", "tariff", "drive", str(asked.constant), tariff=text, drive=drive.text()):
        if line == MARKED:
            fares.append(shown)
        elif line.startswith("REFUSED"):
            raise Differs(f"the program says {line} of a drive that was made here")
        else:
            shown = line.split(" ")[3] if line.startswith("HIRED") else shown
    if len(fares) != len(marks) or "" in fares:
        raise Differs(f"the program shows {len(fares)} fares at {len(marks)} places")
    steps = [at for at in range(len(fares)) if at == 0 or fares[at] != fares[at - 1]]
    return [marks[at] / asked.constant for at in steps], [fares[at] for at in steps]


def joined(taxi, text, asked):
    """The lines that are different: the hours of each, and its steps."""
    lines = []
    for minute in asked.hours:
        steps = fares_at(taxi, text, minute, asked)
        same = next((hours for hours, others in lines if others == steps), None)
        if same is None:
            lines.append(([minute], steps))
        elif minute not in same:
            same.append(minute)
    return lines


def draw_line(axes, at, lines, end):
    """The steps of a line, which has a colour, a dash and marks of its own; what a legend shows of it."""
    _, (kilometres, shown) = lines[at]
    look = {"color": LINES[at], "linewidth": 1.6, "linestyle": DASHES[at]}
    axes.step([*kilometres, end], [float(fare) for fare in [*shown, shown[-1]]], where="post", clip_on=False, **look)
    places = [end * (mark + (at + 0.5) / len(lines)) / MARKS for mark in range(MARKS)]
    fares = [float([fare for begins, fare in zip(kilometres, shown) if begins <= place][-1]) for place in places]
    axes.plot(places, fares, linestyle="none", marker=MARKERS[at], color=LINES[at], markersize=5, clip_on=False)
    return Line2D([], [], marker=MARKERS[at], markersize=5, **look)


def hours_of(minutes):
    """Hours as they are told, a few in a row."""
    return textwrap.fill(", ".join(f"{minute // 60:02}:{minute % 60:02}" for minute in minutes), LETTERS)


def label_of(at, lines):
    """The hours of a line and its first and last fare, and up to where it is the same as one above it."""
    hours, (kilometres, shown) = lines[at]
    label = f"{hours_of(hours)}:{' ' if len(hours) == 1 else chr(10)}from {shown[0]} to {shown[-1]}"
    alike = 0, None
    for others, (places, fares) in lines[:at]:
        steps, theirs = list(zip(kilometres, shown)), list(zip(places, fares))
        count = next(step for step in range(max(len(steps), len(theirs))) if steps[step : step + 1] != theirs[step : step + 1])
        if count > max(1, alike[0]):
            parts = min(line[count][0] for line in (steps, theirs) if count < len(line))
            alike = count, f"\nas {hours_of(others)} up to {parts:.1f} km"
    return label + (alike[1] or "")


def title_of(name, asked):
    place = f"tariff position {asked.position}, zone {asked.zone}"
    return f"{name}, {asked.kmh.normalize():f} km/h, {asked.date:%A} {asked.date}, {place}"


def fares(taxi, text, name, asked):
    """The picture of fares."""
    tables = tables_of(taxi, text, asked.constant)
    need_place(tables, asked.position, asked.zone)
    if len(asked.hours) > len(DASHES):
        raise Refused(2, f"there may be {len(DASHES)} hours")
    lines, end = joined(taxi, text, asked), float(asked.km)
    figure = Figure(figsize=(WIDTH + 3.4, HEIGHT + 1.0))
    axes = axes_in(figure, 0.7, 0.45, WIDTH, HEIGHT)
    looks = [draw_line(axes, at, lines, end) for at in range(len(lines))]
    axes.set(xlim=(0, end), xlabel="distance (km)", ylabel="fare (money of the tariff)", ylim=(0, None))
    axes.xaxis.set_major_locator(MaxNLocator(10, steps=[1, 2, 5, 10], integer=asked.km >= 5))
    axes.grid(color="#dddddd", linewidth=0.6)
    axes.set_title(title_of(name, asked), pad=10)
    legend = {"loc": "upper left", "bbox_to_anchor": (1.01, 1.0), "handlelength": 4.5, "alignment": "left"}
    labels = [label_of(at, lines) for at in range(len(lines))]
    axes.legend(looks, labels, title="hired at, and fares", frameon=False, **legend)
    return svg_of(figure)
