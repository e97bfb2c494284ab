"""The week of a tariff: which rate, hire fee and minimum fare hold in each minute, by the tables of the program."""

import datetime
import textwrap

from matplotlib.figure import Figure

from heglorwy.picture.style import axes_in, patch, svg_of, write_at
from heglorwy.program import Refused
from heglorwy.tables import money, need_place, tables_of, text_of
from heglorwy.tariff_parts import of_kind

MOST_PANELS = 6
TOP = 0.38  # inches above the panels
DAY = 1440
# Inches of a day, of what stands over and under a panel, of a panel, and of the names of its days.
ROW, HEAD, FOOT, WIDTH, LEFT = 0.26, 0.46, 0.5, 4.3, 1.15
LEGEND_LETTERS = 118


def band_at(tables, day, minute, far, asked):
    """The lines that hold at a minute of a day, for a trip that has a distance and a time behind it."""
    context = (
        asked.position, asked.zone, day.isoweekday(), bool(holidays_in(tables, [day])), (day.month, day.day), minute,
        *far,
    )
    return tables.lines_at(context)


def bands_of(tables, day, far, kind, asked):
    """The bands of a day in which one line holds: its first minute, the minute behind it, and the line."""
    starts = [0, *tables.cuts["Minute"]]
    bands = []
    for first, last in zip(starts, [*starts[1:], DAY]):
        line = band_at(tables, day, first, far, asked)[kind]
        if bands and bands[-1][2] is line:
            first = bands.pop()[0]
        bands.append((first, last, line))
    return bands


def rows_of(tables, week, far, kind, asked):
    return [bands_of(tables, day, far, kind, asked) for day in week]


def bands_between(cuts, unit):
    """The bands of a dimension of the trip: where each begins, and what it is called; nothing where there is but
    one."""
    texts = [f"{cut // 10}.{cut % 10}" for cut in cuts]
    names = [f"{first} to {last} {unit}" for first, last in zip(texts, texts[1:])]
    return list(zip([0, *cuts], [f"below {texts[0]} {unit}", *names, f"from {texts[-1]} {unit}"] if cuts else [""]))


def rate_panels(tables, week, asked):
    """A panel for each different week of rates, with the bands of the trip in which it holds."""
    cuts, panels = tables.cuts, []
    for distance, far in bands_between(cuts["Distance"], "m"):
        for time, long in bands_between(cuts["Time"], "s"):
            rows = rows_of(tables, week, (distance, time), "rate", asked)
            name = ", ".join(part for part in (far, long) if part)
            same = next((panel for panel in panels if panel[2] == rows), None)
            if same:
                same[0].append(name)
            else:
                panels.append(([name], "rate", rows))
    if len(panels) > MOST_PANELS:
        raise Refused(
            2, f"distances and times of the trip give {len(panels)} different weeks, and {MOST_PANELS} can be drawn"
        )
    return panels


def title_of(names):
    """What a panel of rates is called: the bands of the trip, of which a few are named."""
    more = f", and in {len(names) - 2} more cases" if len(names) > 2 else ""
    return "Line of the rate" + (": " if names[0] else "") + "\nand: ".join(names[:2]) + more


def panels_of(tables, week, asked):
    """Each panel: its title, the kind of its lines, and the bands of its days."""
    panels = [(title_of(names), kind, rows) for names, kind, rows in rate_panels(tables, week, asked)]
    panels.insert(1, ("Hire fee", "initial", rows_of(tables, week, (0, 0), "initial", asked)))
    if of_kind(tables.lines, "minimum"):
        panels.insert(3, ("Minimum fare", "minimum", rows_of(tables, week, (0, 0), "minimum", asked)))
    return panels


def label_of(tables, line):
    """What a band shows: the number of its line, or an amount."""
    return str(line.number) if line.kind == "rate" else money(line.parts["amount"], tables.decimals)


def holidays_in(tables, week):
    """The days of a week that are holidays."""
    return {
        day
        for day in week
        if (day.year, day.month, day.day) in [line.parts["date"] for line in of_kind(tables.lines, "holiday")]
    }


def draw_panel(axes, panel, week, tables, places):
    """The seven days of a panel, each a row of bands."""
    title, kind, rows = panel
    axes.set(xlim=(0, DAY), ylim=(7, 0), xticks=range(0, DAY + 1, 180), yticks=[at + 0.5 for at in range(7)])
    axes.set_xticklabels([f"{hour:02}:00" for hour in range(0, 25, 3)], fontsize=7.5)
    axes.set_xlabel("local time (hours and minutes)", fontsize=7.5, labelpad=2)
    holidays = holidays_in(tables, week)
    axes.set_yticklabels([f"{day:%a} {day.day} {day:%b}{' *' if day in holidays else ''}" for day in week])
    axes.tick_params(length=2)
    axes.set_title(title)
    for at, bands in enumerate(rows):
        for first, last, line in bands:
            if line is None:
                continue
            axes.add_patch(patch((first, at + 0.04), (last - first, 0.92), places[line.number]))
            label = label_of(tables, line)
            if last - first >= 30 * len(label):
                axes.text(
                    (first + last) / 2, at + 0.52, label, ha="center", va="center", fontsize=7.5,
                    bbox={"facecolor": "white", "edgecolor": "none", "pad": 1.0},
                )


def rows_of_legend(text, lines):
    """Lines of the text, each as it is written, in rows of a width."""
    return [
        (
            line.number,
            textwrap.wrap(f"line {line.number}: {text_of(text, line)}", LEGEND_LETTERS, subsequent_indent="    "),
        )
        for line in lines
    ]


def legend_of(text, panels):
    """The lines of the text that hold somewhere in the picture."""
    used = {line.number: line for _, _, rows in panels for bands in rows for _, _, line in bands if line}
    return rows_of_legend(text, [used[number] for number in sorted(used)])


def draw_legend(figure, legend, top, places):
    for number, rows in legend:
        swatch = axes_in(figure, 0.35, top, 0.42, 0.16)
        swatch.set(xlim=(0, 1), ylim=(0, 1))
        swatch.add_patch(patch((0, 0), (1, 1), places[number]))
        swatch.axis("off")
        for row in rows:
            write_at(figure, 0.9, top + 0.01, row, fontsize=8, family="DejaVu Sans Mono")
            top += 0.2
        top += 0.04


def week_of(day):
    """The seven days of the week of a day."""
    monday = day - datetime.timedelta(days=day.weekday())
    return [monday + datetime.timedelta(days=at) for at in range(7)]


def weeks_of(tables, day):
    """The week of a day; and beside it, where it has no holiday and the tariff has one, that of the next holiday, or of the
    last where none is to come."""
    week = week_of(day)
    holidays = sorted(datetime.date(*line.parts["date"]) for line in of_kind(tables.lines, "holiday"))
    if not holidays or holidays_in(tables, week):
        return [week]
    return [week, week_of(next((holiday for holiday in holidays if holiday > day), holidays[-1]))]


def placed(tables, weeks, asked):
    """The panels from the top: each with the days of its week, and its row and column. One week has its panels in two
    columns; of two weeks each has a column."""
    panels = [panels_of(tables, days, asked) for days in weeks]
    if len(weeks) == 1:
        return [(panel, weeks[0], at // 2, at % 2) for at, panel in enumerate(panels[0])]
    return [(panel, weeks[column], row, column) for column in range(2) for row, panel in enumerate(panels[column])]


def places_of(tables):
    """The place among the colours and patterns of each line."""
    return {line.number: place for kind, first in (("rate", 0), ("initial", 4), ("minimum", 6))
            for place, line in enumerate(of_kind(tables.lines, kind), first)}


def said_of(tables, weeks):
    """Which weeks are drawn."""
    said = f"the week of {weeks[0][0]}" + (f", and that of {weeks[1][0]} with a holiday" if weeks[1:] else "")
    return said + (" (* is a holiday)" if any(holidays_in(tables, days) for days in weeks) else "")


def week(taxi, text, name, asked):
    """The picture of a week, and of one with a holiday beside it."""
    tables = tables_of(taxi, text, asked.constant)
    need_place(tables, asked.position, asked.zone)
    weeks = weeks_of(tables, asked.week)
    panels, places = placed(tables, weeks, asked), places_of(tables)
    legend = legend_of(text, [panel for panel, *_ in panels])
    high = HEAD + 7 * ROW + FOOT
    height = (1 + max(row for _, _, row, _ in panels)) * high
    figure = Figure(figsize=(2 * (WIDTH + LEFT) + 0.25, TOP + height + 0.1 + sum(0.2 * len(rows) + 0.04 for _, rows in legend) + 0.1))
    write_at(figure, 0.35, 0.12, f"{name}, tariff position {asked.position}, zone {asked.zone}, {said_of(tables, weeks)}", fontsize=11)
    for panel, days, row, column in panels:
        axes = axes_in(figure, LEFT + column * (WIDTH + LEFT), TOP + row * high + HEAD, WIDTH, 7 * ROW)
        draw_panel(axes, panel, days, tables, places)
    draw_legend(figure, legend, TOP + height + 0.1, places)
    return svg_of(figure)
