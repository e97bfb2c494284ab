"""The list of a kit: what each drive is for, what the driver does, and what no drive tells."""

import datetime
import hashlib
import itertools
import random
import re
from typing import NamedTuple

from heglorwy.drives import SECOND
from heglorwy.officer.hirings import drive_file
from heglorwy.officer.levels import NOT_TOLD, SAID, SHORT_OF_STEPS
from heglorwy.officer.meter_part import drive_text
from heglorwy.officer.ride import moment, words_of
from heglorwy.tables import money
from heglorwy.tariff_parts import atoms_in, of_kind

OF_TIME = {"minute", "day", "date", "holiday"}
MOST_ACTS = 60  # of a hiring, which are told one by one
MOST_MOMENTS = 120  # at which a hiring is tried, to see whether the clock has to be set for it
SLUGS = [
    (r"lines? (\d+)", r"line\1"), (r"supplement (\d+)", r"supplement\1"), (r"numbers of supplements", "supplements"),
    (r"position (\d+)", r"position\1"), (r"zone (\d+)", r"zone\1"), (r"\d+ s without supply", "supply"),
    (r"the other mode", "mode"), (r"the first sealed offset", "offset"), (r"the longest", "expiry"),
]


class KitDrive(NamedTuple):
    """A drive of a kit: its name and text, the number of its first hiring, and what each of its hirings is for."""

    name: str
    text: bytes
    first: int
    purposes: list
    is_for_meter: bool


class Made(NamedTuple):
    """The list, the drives, and what no drive tells, in words."""

    text: str
    drives: list
    untold: list
    left_out: list
    words: str


def duration(ticks):
    """A time as a person reads it."""
    minutes = -(-ticks // (60 * SECOND))
    return f"{minutes // 60} h {minutes % 60:02} min" if minutes >= 60 else f"{minutes} min"


def seconds(ticks):
    return f"{ticks // SECOND}.{ticks % SECOND} s"


def slug(purpose):
    for pattern, name in SLUGS:
        if found := re.match(pattern, purpose):
            return found.expand(name)
    return "hiring"


def parts_of(hiring):
    """The legs of a hiring, those of an even speed together: pulses, intervals, and where they are driven."""
    place, parts = (hiring.position, hiring.zone), []
    for leg in hiring.legs:
        place, switch = leg.place or place, leg.place is not None
        count = leg.count + 2 * switch
        if parts and not switch and abs(parts[-1][2] - leg.pulses) <= 1 and (parts[-1][2] and leg.pulses):
            parts[-1] = (parts[-1][0] + leg.pulses * count, parts[-1][1] + count, leg.pulses, place)
        else:
            parts.append((leg.pulses * count, count, leg.pulses, place))
    return parts


def doing(meter, hiring):
    """What the driver does, in words."""
    said, last = [], (hiring.position, hiring.zone)
    for pulses, count, _, place in parts_of(hiring):
        if place != last:
            said.append(f"switch to T{place[0]} Z{place[1]}")
            last = place
        if pulses:
            kmh = 36_000 * pulses / count / meter.constant
            said.append(f"drive {1000 * pulses / meter.constant:.1f} m at {kmh:.1f} km/h for {seconds(count)}")
        else:
            said.append(f"stand {seconds(count)}")
    if hiring.lost is not None:
        said.insert(1, f"{hiring.lost} s without supply")
    extras = [f"{number} x {len(list(group))}" for number, group in itertools.groupby(hiring.extras)]
    if len(extras) == 1:
        said.append(f"supplement {extras[0]}")
    elif extras:
        said.append(f"supplements {', '.join(str(number) for number in hiring.extras)}")
    return "; ".join(said)


class Lister:
    """Writes the list of a kit: of the hirings for the tariff that were chosen, and of those for the meter."""

    def __init__(self, kit, chosen, part):
        self.kit, self.program, self.meter, self.part = kit, kit.program, kit.program.meter, part
        self.hirings = sorted((kit.matrix.hirings[at] for at in chosen), key=lambda hiring: (hiring.start, hiring))
        random.Random(f"{kit.asked.seed} order").shuffle(self.hirings)
        self.places = [kit.matrix.hirings.index(hiring) for hiring in self.hirings]
        self.purposes = {hiring: list(kit.matrix.purposes[hiring]) for hiring in self.hirings}
        self.untold, self.weaker = [], []
        self.share()

    def share(self):
        """Gives each case to the first hiring that tells it best; keeps those that none tells, or tells less well."""
        for title, row in self.kit.matrix.rows.items():
            best = max((row.get(at, NOT_TOLD) for at in self.places), default=NOT_TOLD)
            if best == NOT_TOLD:
                hangs = "only hirings tell it that a right meter fails by a pulse or a second of its clock (--bench)"
                reason = hangs if max(row.values(), default=NOT_TOLD) > NOT_TOLD else self.kit.reasons.get(title)
                self.untold.append((title, reason or "no fare shows it"))
                continue
            at = next(at for at in self.places if row.get(at) == best)
            self.purposes[self.kit.matrix.hirings[at]].append(f"{title} ({SAID[best]})")
            turn = self.kit.matrix.cases[title].turn
            if turn and best < turn.wanted and best != SHORT_OF_STEPS:
                self.weaker.append((title, best))

    def needs_clock(self, hiring):
        """Whether the clock has to be set: not where the hiring is charged the same at each moment."""
        lines = self.program.tariff.lines
        if not any(atom[0] in OF_TIME for atom in atoms_in(lines)):
            return False
        moments = list(itertools.islice(self.moments(), MOST_MOMENTS + 1))
        if len(moments) > MOST_MOMENTS:
            return True
        others = [hiring._replace(second=second + hiring.second % 60) for second in moments]
        right = self.program.show([hiring])[0]
        return any(one.fare != right.fare for one in self.program.shown(self.meter.tariff, others))

    def moments(self):
        """A moment of each band of minutes, on a day of each kind of the first year."""
        lines, meter = self.program.tariff.lines, self.meter
        minutes = sorted({0, *(minute for atom in atoms_in(lines) if atom[0] == "minute" for minute in atom[1:])})
        holidays = {datetime.date(*line.parts["date"]) for line in of_kind(lines, "holiday")}
        starts = {place for atom in atoms_in(lines) if atom[0] == "date" for place in atom[1:]}
        secured = datetime.date.fromisoformat(meter.secured)
        days = [secured + datetime.timedelta(days=day) for day in range(366)]
        dates = days[:7] + [day for day in days[7:] if day in holidays or (day.month, day.day) in starts]
        for date, minute in itertools.product(dates, minutes):
            if (second := meter.second_at(date, minute)) is not None:
                yield second

    def head(self):
        meter, asked, rides = self.meter, self.kit.asked, self.part.drives
        ticks = [[hiring.ticks for hiring in self.hirings], [ride.ticks for ride in rides]]
        counts = [len(self.hirings), sum(ride.count for ride in rides)]
        longest = max(itertools.chain(*ticks), default=0)
        where = "for a bench that feeds pulses and ticks in step" if asked.is_on_bench else "for the road or a bench"
        said = [
            f"{count} for the {name}, {duration(sum(each))}" for count, name,
            each in zip(counts, ("tariff", "meter"), ticks)
        ]
        return [
            f"{sum(counts)} hirings, {duration(sum(map(sum, ticks)))} of driving;"
            f" the longest takes {duration(longest)}",
            f"{where}: {asked.words}",
            f"hirings: {said[0]}; {said[1]}",
            f"constant {meter.constant}, mode {meter.mode}, hold {meter.hold} s, secured {meter.secured}",
            f"tariff, SHA-256: {hashlib.sha256(meter.tariff).hexdigest()}",
            f"wrong tariffs that are told: {len(self.kit.matrix.rows) - len(self.untold)},"
            f" not told: {len(self.untold)}",
        ]

    def entry(self, number, hiring, name):
        """The lines of the list on a hiring for the tariff."""
        clock = "set the clock" if self.needs_clock(hiring) else "at any time"
        keys = "".join(f", then key {key}, which is refused" for key in hiring.before)
        yield f"{number}. {name}: {clock}: {moment(self.meter, hiring.start)}, T{hiring.position} Z{hiring.zone}{keys}"
        far = 1_000_000 * hiring.pulses // self.meter.constant
        yield f"   {doing(self.meter, hiring)}"
        yield f"   {seconds(hiring.ticks)}, {money(far, 3)} m"
        yield from (f"   - {purpose}" for purpose in self.purposes[hiring])

    def meter_entry(self, number, ride, name):
        """The lines of the list on a drive for the meter, of which each hiring has its number."""
        last = number + ride.count - 1
        span = f"{number}" if ride.count == 1 else f"{number} to {last}"
        clock = "set the clock" if ride.needs_clock else "at any time"
        yield f"{span}. {name}: {clock}: {moment(self.meter, ride.acts[0].value)}"
        for at, acts in enumerate(hirings_in(ride.acts)):
            yield f"   {f'{number + at}: ' if ride.count > 1 else ''}{'; '.join(shortened(self.meter, acts))}"
        yield f"   {seconds(ride.ticks)}"
        for at, purposes in enumerate(ride.purposes, number):
            yield from (f"   - {f'{at}: ' if ride.count > 1 else ''}{purpose}" for purpose in purposes)

    def made(self):
        lines, made, number = self.head(), [], 1
        width = max(2, len(str(len(self.hirings) + sum(ride.count for ride in self.part.drives))))
        for hiring in self.hirings:
            purposes = self.purposes[hiring]
            name = f"{number:0{width}}_{slug((purposes or [''])[0])}.drive"
            lines += ["", *self.entry(number, hiring, name)]
            made.append(KitDrive(name, drive_file(hiring, purposes), number, [purposes], False))
            number += 1
        for ride in self.part.drives:
            name = f"{number:0{width}}_{ride.name}.drive"
            lines += ["", *self.meter_entry(number, ride, name)]
            text = drive_text(self.meter, ride, itertools.chain(*ride.purposes))
            made.append(KitDrive(name, text, number, ride.purposes, True))
            number += ride.count
        return self.ended(lines, made)

    def ended(self, lines, made):
        """The list with what is told less well, or by no drive."""
        weaker = [f"{title}: {SAID[best]}{self.because(title)}" for title, best in self.weaker]
        untold = [f"{title}: {reason}" for title, reason in self.untold]
        left_out = [*self.kit.notes, *self.part.notes]
        for title, found in (
            ("Told less well than it should be:", weaker), ("Told by no drive:", untold), ("Left out:", left_out),
        ):
            lines += ["", title, *(f"- {text}" for text in found)] if found else []
        return Made("".join(f"{line}\n" for line in lines), made, untold, left_out, self.kit.asked.words)

    def because(self, title):
        reason = self.kit.reasons.get(title)
        return f": {reason}" if reason else ""


def hirings_in(acts):
    """The acts of each hiring; where the drive begins is said before."""
    found, last = [], []
    for act in acts[1:]:
        last.append(act)
        if (act.what, act.value) == ("key", "C"):
            found.append(last)
            last = []
    return found


def shortened(meter, acts):
    """Acts in words. Many short ones are not told one by one."""
    if len(acts) <= MOST_ACTS:
        return [words_of(meter, act) for act in acts]
    ways = [act for act in acts if act.what == "go"]
    metres, ticks = sum(act.value * act.ticks / 36 for act in ways), sum(act.ticks for act in ways)
    return [
        "Hire", f"creep and stand by turns, {metres:.0f} m in {seconds(ticks)}, as the drive has it", "Stop", "Clear"
    ]


def listing(kit, chosen, part):
    return Lister(kit, chosen, part).made()
