"""What a meter shows over the time of a drive: fares and supplements, operating positions, keys, losses of supply, and
the line of the rate by which it charges."""

import datetime
from typing import NamedTuple

from matplotlib.figure import Figure
from matplotlib.ticker import MaxNLocator

from heglorwy.drives import SECOND
from heglorwy.meter import LAST, asked_of, hirings_of, meter_of, tenths
from heglorwy.picture.style import axes_in, patch, svg_of, write_at
from heglorwy.picture.week import draw_legend, rows_of_legend
from heglorwy.program import Differs, Refused, Scratch, read
from heglorwy.tables import tables_of
from heglorwy.tariff_parts import of_kind

POINTS = 600  # into at least so many parts a drive is parted, to see when a display came
MARK, MARKED = "U 946684800", "REFUSED POWERED"  # a second power-up is refused and changes nothing
WIDTH, HEIGHT, STRIP, KEYS = 9.0, 3.4, 0.3, 0.55  # inches


KEYS_SAID = {"H": "Hire", "S": "Stop", "C": "Clear", "P": "tariff position", "Z": "zone", "E": "supplement"}


class Moment(NamedTuple):
    """A place of a drive at which it is marked: the ticks before it, and how many of the parted lines stand before
    it."""

    ticks: int
    lines: int


class Reading(NamedTuple):
    """A reading of the clock: whether the supply came with it, how many moments there were before, the ticks, and the
    second."""

    is_power_up: bool
    moments: int
    ticks: int
    second: int


class Parted:
    """A drive in parts: its lines, the same with marks, and when keys were pressed and the supply was lost."""

    def __init__(self, text):
        self.lines, self.marked, self.is_mark, self.moments = [], [], [], []
        self.keys, self.losses, self.readings, self.ticks, self.clock = [], [], [], 0, 0
        lines = [line for line in text.decode().replace("\r\n", "\n").split("\n") if line and not line.startswith("#")]
        whole = sum(int(line.split()[2]) for line in lines if line.startswith("I "))
        self.part = max(1, whole // POINTS)
        self.is_on = False
        for line in lines:
            self.take(line)

    def take(self, line):
        """A line, in parts where it has many intervals, and a mark behind each where the meter is powered."""
        word, *rest = line.split()
        if word == "U":
            self.is_mark += [False] * self.is_on
            self.read_clock(not self.is_on, int(rest[0]))
            self.is_on = True
        elif word == "D":
            self.losses += [self.ticks] * self.is_on
            self.is_on = False
        elif word == "C":
            self.read_clock(False, int(rest[0]))
        elif word == "K" and self.is_on:
            self.keys.append((self.ticks, "".join(rest)))
        if word != "I":
            self.put(line, int(word == "T"))
            return
        left = int(rest[1])
        while left:
            count = min(left, self.part)
            self.put(f"I {rest[0]} {count}", count)
            left -= count

    def read_clock(self, is_power_up, second):
        if is_power_up or self.is_on:
            self.clock = max(self.clock, second)
            self.readings.append(Reading(is_power_up, len(self.moments), self.ticks, second))

    def put(self, line, ticks):
        self.lines.append(line)
        self.marked.append(line)
        self.ticks += ticks * self.is_on
        if self.is_on:
            self.marked.append(MARK)
            self.is_mark.append(True)
            self.moments.append(Moment(self.ticks, len(self.lines)))


def text_of(lines):
    return "".join(f"{line}\n" for line in lines).encode()


def printed_by_run(asked, drive):
    """What `run` prints of a drive on a new store with the tariff and the parameters."""
    with Scratch("taxi") as taxi:
        return asked_of(taxi, meter_of(taxi, asked), "run", drive)


def displays_of(parted, asked, text):
    """The display at each moment: its position, fare and supplements, in money; what is printed between the marks has
    to be what the drive without marks prints."""
    plain, shown, displays, marks = [], None, [], iter(parted.is_mark)
    for line in printed_by_run(asked, text_of(parted.marked)):
        if line == MARKED and next(marks, False):
            displays.append(shown)
            continue
        plain.append(line)
        words = line.split(" ")
        if words[0] in ("FOR", "HIRED", "STOPPED"):
            shown = (words[0], *words[-2:]) if words[0] != "FOR" else ("FOR", "", "")
    if plain != printed_by_run(asked, text) or len(displays) != len(parted.moments):
        raise Differs("the program prints something else of the drive in parts")
    return displays


class Rates:
    """How long each rate line has charged up to a moment, by `explain` of the drive up to there."""

    def __init__(self, taxi, meter, parted):
        self.taxi, self.meter, self.parted, self.known = taxi, meter, parted, {}

    def until(self, moment):
        """The ticks of each line, where the supply is lost at a moment and no trip goes on behind it."""
        if moment not in self.known:
            lines = self.parted.lines[: moment.lines]
            after = f"U {min(LAST, self.parted.clock + self.meter.hold + 1)}"
            found = {}
            for hiring in hirings_of(self.taxi, self.meter, text_of([*lines, "D", after])):
                for words in hiring:
                    if words[0] == "RATE":
                        found[int(words[1])] = found.get(int(words[1]), 0) + tenths(words[5])
            self.known[moment] = found
        return self.known[moment]

    def between(self, first, last):
        """The lines that charge between two moments, each with the ticks from which and to which it does."""
        before, behind = self.until(self.parted.moments[first]), self.until(self.parted.moments[last])
        grown = {line: ticks - before.get(line, 0) for line, ticks in behind.items() if ticks != before.get(line, 0)}
        begins, ends = self.parted.moments[first].ticks, self.parted.moments[last].ticks
        if grown and last - first > 1 and list(grown.values()) != [ends - begins]:
            middle = (first + last) // 2
            return self.between(first, middle) + self.between(middle, last)
        return [(begins, ends, line) for line in list(grown)[:1]]


def joined(pieces):
    """Pieces of one line that touch, as one."""
    whole = []
    for begins, ends, line in pieces:
        if whole and whole[-1][1:] == (begins, line):
            begins = whole.pop()[0]
        whole.append((begins, ends, line))
    return whole


class Clock:
    """What the meter's clock says as time passes: its last reading, and the time since. In a trip an earlier second than the
    last one is refused."""

    def __init__(self, parted, displays, meter):
        self.meter, self.read = meter, []
        for reading in parted.readings:
            is_in_trip = reading.moments and displays[reading.moments - 1] and displays[reading.moments - 1][0] != "FOR"
            if reading.is_power_up or not is_in_trip or reading.second >= self.read[-1].second:
                self.read.append(reading)

    def at(self, ticks):
        """Local time after so many ticks with supply."""
        last = [reading for reading in self.read if reading.ticks <= ticks][-1]
        second = min(LAST, last.second + int(ticks - last.ticks) // SECOND)
        return datetime.datetime.fromtimestamp(second + self.meter.offset_at(second), datetime.timezone.utc)


def draw_times(axes, clock, width, unit, unit_name):
    """The seconds or minutes below the picture, and below each the clock."""
    places = [place for place in MaxNLocator(8, steps=[1, 2, 3, 5, 6, 10]).tick_values(0, width) if 0 <= place <= width]
    axes.set_xticks(places, [f"{place:g}\n{clock.at(place * unit):%H:%M:%S}" for place in places])
    axes.set_xlabel(f"time with supply ({unit_name}), and the clock from {clock.at(0):%A} {clock.at(0).date()} on")


def keys_said(parted):
    """What the keys of a drive are called."""
    said = [f"{key} is {name}" for key, name in KEYS_SAID.items() if any(pressed[0] == key for _, pressed in parted.keys)]
    return [f"Keys: {', '.join(said)}"] if said else []


def draw_fares(axes, parted, displays, unit):
    """The fare and the supplements as steps, and the time in which the meter is stopped."""
    times = [moment.ticks / unit for moment in parted.moments]
    for at, (label, dash) in enumerate((("fare", "-"), ("supplements", "--"))):
        values = [float(shown[1 + at]) if shown and shown[1] else float("nan") for shown in displays]
        if at == 0 or any(value > 0 for value in values):
            axes.step(
                times, values, where="post", linestyle=dash, color=("#0072b2", "#d55e00")[at], linewidth=1.6,
                label=label,
            )
    stopped = [shown is not None and shown[0] == "STOPPED" for shown in displays]
    labels = ["stopped"]
    for at in range(len(times) - 1):
        if stopped[at]:
            axes.axvspan(
                times[at], times[at + 1], facecolor="#eeeeee", hatch="////", edgecolor="#bbbbbb", linewidth=0,
                label=labels.pop() if labels else None,
            )
    for loss in parted.losses:
        axes.axvline(loss / unit, color="#000000", linestyle=":", linewidth=1.2)
    axes.set_ylim(
        0, 1.15 * max([float(amount) for shown in displays if shown for amount in shown[1:] if amount], default=1)
    )
    axes.grid(axis="y", color="#dddddd", linewidth=0.6)
    axes.set_ylabel("money of the tariff")
    axes.legend(loc="best", frameon=True, fontsize=8)


def draw_marks(axes, parted, unit, width):
    """Keys and losses of supply above the fares; those of almost one time stand behind one another, and no two texts
    meet."""
    axes.set(ylim=(0, 3))
    axes.axis("off")
    groups = []
    for time, name in sorted(
        [(ticks / unit, name) for ticks, name in parted.keys]
        + [(ticks / unit, "supply lost") for ticks in parted.losses],
        key=lambda mark: mark[0],
    ):
        if groups and time - groups[-1][0] < 0.02 * width:
            groups[-1][1].append(name)
        else:
            groups.append((time, [name]))
    ends = [float("-inf")] * 3
    for time, names in groups:
        text = ", ".join(names)
        long = width * (0.0085 * len(text) + 0.012)
        begins = min(time, max(0, width - long))
        level = min(range(3), key=lambda at: (ends[at] > begins, ends[at] if ends[at] > begins else at))
        axes.plot([time, time], [0, level + 0.1], color="#777777", linewidth=0.6, clip_on=False)
        axes.text(begins, level + 0.15, text, fontsize=7.5, ha="left", va="bottom", clip_on=False)
        ends[level] = begins + long


def draw_strip(axes, pieces, tables, unit, width):
    """The line of the rate in each part of the time."""
    axes.set(ylim=(0, 1), yticks=[])
    axes.set_ylabel("rate", rotation=0, ha="right", va="center")
    places = {line.number: place for place, line in enumerate(of_kind(tables.lines, "rate"))}
    for begins, ends, line in pieces:
        axes.add_patch(patch((begins / unit, 0.05), ((ends - begins) / unit, 0.9), places[line]))
        if (ends - begins) / unit > 0.03 * width:
            axes.text(
                (begins + ends) / 2 / unit, 0.5, str(line), ha="center", va="center", fontsize=7.5,
                bbox={"facecolor": "white", "edgecolor": "none", "pad": 1.0},
            )


def trip(taxi, text, name, asked):
    """The picture of a drive."""
    drive = read(asked.drive)
    meter = meter_of(taxi, asked)
    tables = tables_of(taxi, text, meter.constant)
    printed_by_run(asked, drive)  # a drive that is refused is refused here
    parted = Parted(drive)
    displays = displays_of(parted, asked, drive)
    if len(parted.moments) < 2 or not parted.ticks:
        raise Refused(2, "the drive has no time in which the meter is powered")
    pieces = joined(Rates(taxi, meter, parted).between(0, len(parted.moments) - 1))
    unit, unit_name = (60 * SECOND, "minutes") if parted.ticks > 3000 else (SECOND, "seconds")
    width = parted.ticks / unit
    used = [line for line in of_kind(tables.lines, "rate") if line.number in {piece[2] for piece in pieces}]
    legend, keys, under = rows_of_legend(text, used), keys_said(parted), 0.45 + KEYS + HEIGHT + STRIP + 0.8
    figure = Figure(figsize=(WIDTH + 1.0, under + 0.25 * len(keys) + 0.1 + sum(0.2 * len(rows) + 0.04 for _, rows in legend)))
    write_at(figure, 0.35, 0.12, f"{name}, {asked.drive.name}: what the meter shows", fontsize=11)
    marks = axes_in(figure, 0.75, 0.45, WIDTH, KEYS)
    fares = axes_in(figure, 0.75, 0.45 + KEYS, WIDTH, HEIGHT)
    strip = axes_in(figure, 0.75, 0.45 + KEYS + HEIGHT + 0.08, WIDTH, STRIP)
    for axes in (marks, fares, strip):
        axes.set_xlim(0, width)
    draw_marks(marks, parted, unit, width)
    draw_fares(fares, parted, displays, unit)
    fares.set_xticklabels([])
    draw_strip(strip, pieces, tables, unit, width)
    draw_times(strip, Clock(parted, displays, meter), width, unit, unit_name)
    for said in keys:
        write_at(figure, 0.35, under, said, fontsize=8)
    places = {line.number: at for at, line in enumerate(of_kind(tables.lines, "rate"))}
    draw_legend(figure, legend, under + 0.25 * len(keys), places)
    return svg_of(figure)
