"""Moves the chosen hirings for the tariff to other days and hours, as a seed draws them, where they tell as much
there."""

import datetime

from heglorwy.officer.levels import NOT_TOLD

WEEK = 604_800
WEEKS = 100  # by up to so many a hiring is moved
HOUR = 3600


class Moving:
    """Moves of the hirings of a kit."""

    def __init__(self, kit, draw):
        self.kit, self.matrix, self.draw = kit, kit.matrix, draw
        self.meter = kit.program.meter

    def at_local(self, second, other):
        """A second with the local time of day and weekday of another one."""
        return second - self.meter.offset_at(second) + self.meter.offset_at(other)

    def to_any_hour(self, hiring):
        start = hiring.second + self.draw.randint(1, 7 * WEEKS) * 24 * HOUR + self.draw.randrange(24 * 60) * 60
        return hiring._replace(second=start)

    def to_other_week(self, hiring):
        """Weeks later, on the same weekday at the same local time."""
        return hiring._replace(second=self.at_local(hiring.second + self.draw.randint(1, WEEKS) * WEEK, hiring.second))

    def to_other_year(self, hiring):
        """On the same day of a later year."""
        local = datetime.datetime(1970, 1, 1) + datetime.timedelta(
            seconds=hiring.second + self.meter.offset_at(hiring.second)
        )
        try:
            later = local.replace(year=local.year + self.draw.randint(1, 2))
        except ValueError:  # 29 February
            return hiring
        return hiring._replace(
            second=self.at_local(hiring.second + int((later - local).total_seconds()), hiring.second)
        )

    def needed(self, places):
        """Of each case the best level at which a chosen hiring tells it, and which ones do."""
        for title, row in self.matrix.rows.items():
            best = max((row[at] for at in places), default=NOT_TOLD)
            if best > NOT_TOLD:
                yield title, best, [at for at in places if row[at] == best]

    def moved(self, places):
        """The places of the hirings, each moved if it tells as much elsewhere."""
        now = {at: at for at in places}
        for way in (self.to_any_hour, self.to_other_week, self.to_other_year):
            left = self.alike({at: self.added(at, way) for at in places if now[at] == at})
            for title, best, tellers in self.needed(places):
                row = self.matrix.tried(self.matrix.cases[title], sorted({left[at] for at in tellers if at in left}))
                left = {at: new for at, new in left.items() if at not in tellers or row[new] >= best}
            now |= left
        return sorted(now.values())

    def alike(self, moves):
        """Those moves behind which a right meter shows the same fare, and passes as before."""
        self.kit.program.show([self.matrix.hirings[new] for new in moves.values()])
        fare = lambda at: self.kit.program.show([self.matrix.hirings[at]])[0].fare
        return {at: new for at, new in moves.items() if new != at and fare(at) == fare(new) and self.is_steady(at, new)}

    def added(self, at, way):
        hiring = self.matrix.hirings[at]
        new = way(hiring)
        return self.matrix.add(new, *self.matrix.purposes[hiring])

    def is_steady(self, at, new):
        """Whether a right meter passes a moved hiring as it passes the one before."""
        if self.kit.asked.is_on_bench:
            return True
        hirings, beside = [self.matrix.hirings[place] for place in (at, new)], self.kit.beside
        beside.look_at(hirings)
        return all((hirings[1] in found) <= (hirings[0] in found) for found in (beside.fails, beside.hangs))
