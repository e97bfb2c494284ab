"""Walks through a drive that are wrong in one rule each, for tests/tools/account: each has to be found out."""

from heglorwy.account.walk import Walk


class KeepsItsPlace(Walk):
    """Goes on in the tariff position and zone that were set, where the supply comes and no trip does."""

    def power_up(self, second):
        place = self.place
        super().power_up(second)
        self.place = place


class HoldsForLess(Walk):
    """Holds a trip for a second less."""

    def power_up(self, second):
        self.saved = None if self.saved is None else self.saved - 1
        super().power_up(second)


class ChargesByTheNewClock(Walk):
    """Charges an interval by the clock at its end."""

    def charge(self, trip, pulses, count):
        self.begun = self.clock
        super().charge(trip, pulses, count)


class ForgetsWhatWasDropped(Walk):
    """Counts no pulses of an interval that a loss of supply cut short."""

    def drop(self):
        self.pulses = 0
        super().drop()


class ActsFirst(Walk):
    """Lets a key act before its interval is charged."""

    def interval(self, pulses):
        key, self.latch = self.latch, None
        if key:
            self.act(*key)
        super().interval(pulses)


class CountsNoTimeInStopped(Walk):
    """Counts neither pulses nor ticks in Stopped."""

    def pass_by(self, pulses, count):
        if not (self.trip and self.is_stopped):
            super().pass_by(pulses, count)


class ChargesStopped(Walk):
    """Charges in Stopped as in Hired."""

    def pass_by(self, pulses, count):
        was, self.is_stopped = self.is_stopped, False
        super().pass_by(pulses, count)
        self.is_stopped = was and self.trip is not None


class LetsItsClockGoBack(Walk):
    """Takes an earlier second in a trip."""

    def read_clock(self, second):
        trip, self.trip = self.trip, None
        super().read_clock(second)
        self.trip = trip


class TakesAllPulses(Walk):
    """Takes more pulses in an interval than a meter can."""

    def take(self, word, *rest):
        if word == "I" and self.is_on:
            self.intervals(*map(int, rest))
        else:
            super().take(word, *rest)


class TakesEachSupplement(Walk):
    """Takes a supplement more often than the tariff allows."""

    def act(self, key, number="0"):
        if key == "E" and self.trip and int(number) in self.supplements:
            self.trip.supplements[int(number)] += 1
        else:
            super().act(key, number)


class IsAnIntervalLate(Walk):
    """Passes a bound of distance or time an interval too late."""

    def alike(self, pulses):
        return super().alike(pulses) + 1


WRONG = [KeepsItsPlace, HoldsForLess, ChargesByTheNewClock, ForgetsWhatWasDropped, ActsFirst, CountsNoTimeInStopped,
         ChargesStopped, LetsItsClockGoBack, TakesAllPulses, TakesEachSupplement, IsAnIntervalLate]
