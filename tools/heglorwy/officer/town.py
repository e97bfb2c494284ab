"""What a tariff and a meter give occasion for: places, days, and borders of time; which of them are taken is drawn."""

import datetime
import itertools

from heglorwy.meter import FIRST, LAST
from heglorwy.tariff_parts import atoms_in, number_of, of_kind

YEARS = 2  # behind the securing, in which days are drawn
LATE = 20  # seconds within a minute at which a hiring begins
OF_TIME = {"minute", "day", "date", "holiday"}


class Town:
    """The occasions of a tariff, for a driver who is at most so fast, in km/h."""

    def __init__(self, program, fastest):
        self.program, self.meter, self.fastest = program, program.meter, fastest
        lines = program.tariff.lines
        atoms = atoms_in(lines)
        self.positions, self.zones = (number_of(lines, kind) for kind in ("positions", "zones"))
        self.supplements = {line.parts["number"]: line.parts["most"] for line in of_kind(lines, "supplement")}
        self.minima = of_kind(lines, "minimum")
        self.borders = sorted({minute for atom in atoms if atom[0] == "minute" for minute in atom[1:]})
        self.bounds = sorted({atom[1] for atom in atoms if atom[0] == "distance"})  # decimetres
        self.durations = sorted({atom[1] for atom in atoms if atom[0] == "time of trip"})  # ticks
        self.asks = {atom[0] for atom in atoms}
        self.holidays = {datetime.date(*line.parts["date"]) for line in of_kind(lines, "holiday")}
        secured = datetime.date.fromisoformat(self.meter.secured)
        self.days = [day for count in range(366 * YEARS) if (day := secured + datetime.timedelta(count)).year < 2200]

    @property
    def asks_for_time(self):
        return bool(self.asks & OF_TIME)

    def second(self, day, minute):
        """The second of a minute of a day; None where there is none."""
        return self.meter.second_at(day + datetime.timedelta(days=minute // 1440), minute % 1440)

    def plain_day(self, draw):
        """A day that is no Saturday, no Sunday and no holiday, as far as there is one."""
        plain = [day for day in self.days if day.isoweekday() < 6 and day not in self.holidays]
        return draw.choice(plain or self.days)

    def moment(self, draw, day=None, minute=None):
        """A second of a day, by default of a plain one and at any minute; of a later day if it has none."""
        for later in range(100):
            on = day + datetime.timedelta(days=later) if day else self.plain_day(draw)
            at = draw.randrange(1440) if minute is None else minute
            if (second := self.second(on, at)) is not None:
                return second + LATE
        raise ValueError("no such moment")

    def needed(self, acts):
        """The acts without keys for a position or a zone where there is one alone."""
        letters = [letter for letter, count in (("P", self.positions), ("Z", self.zones)) if count == 1]
        return [act for act in acts if act.what != "key" or act.value[0] not in letters]

    def place(self, draw):
        return draw.randint(1, self.positions), draw.randint(1, self.zones)

    def speed(self, draw, low=40, high=70):
        return min(self.fastest, draw.uniform(low, high))

    def edges(self, draw):
        """Minutes of the day beside the borders of time, before and behind each, in an order that is drawn; any minutes
        where there is no border."""
        found = [(border + side * draw.randint(5, 50)) % 1440 for border in self.borders for side in (1, -1)]
        draw.shuffle(found)
        return found or [draw.randrange(1440) for _ in range(4)]

    def is_summer(self, day):
        """Whether a day has the greater offset of local time; without two of them, whether it is of the year's
        middle."""
        offsets = {offset for _, offset in self.meter.offsets}
        if len(offsets) == 1:
            return 4 <= day.month <= 9
        return self.meter.offset_at(self.second(day, 720) or FIRST) == max(offsets)

    def changes(self):
        """The changes of local time in the first two years behind the securing and in the last year that is sealed: the
        second of each, and by how much."""
        pairs = [
            (begins, offset - before)
            for (_, before), (begins, offset) in itertools.pairwise(self.meter.offsets)
            if offset != before and (self.second(self.days[0], 720) or FIRST) <= begins <= LAST - 7 * 86_400
        ]
        year = lambda begins: datetime.datetime.fromtimestamp(begins, datetime.timezone.utc).year
        years = sorted({year(begins) for begins, _ in pairs})
        return [pair for pair in pairs if year(pair[0]) in {*years[:2], *years[-1:]}]
