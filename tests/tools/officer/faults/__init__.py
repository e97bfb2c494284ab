"""Wrong meters: tables of changes of the reference meter (tests/support/fraction_meter.py), a few lines each."""

from typing import NamedTuple

from support.fraction_meter import FractionMeter

ORDINARY, RARE, SMALL, UNSEEN = "ordinary", "rare", "small", "unseen"


class Watched(FractionMeter):
    """The reference meter, which also knows the trip before and counts hirings and losses of supply since it was
    powered."""

    def __init__(self, *words):
        super().__init__(*words)
        self.before, self.hirings, self.losses = None, 0, 0

    def begin(self):
        self.hirings, self.losses = self.hirings + 1, 0
        return super().begin()

    def close(self, kind):
        trip = self.trip
        super().close(kind)
        self.before = trip

    def power_up(self, second):
        self.losses += 1
        if not self.trip:
            self.hirings, self.before = 0, None
        super().power_up(second)


class Fault(NamedTuple):
    """A wrong meter: its name, what is changed, and how well a kit has to tell it: ORDINARY by each seed; RARE, on a
    few dates, minutes or speeds alone, by some; SMALL and UNSEEN by none, for the reason."""

    name: str
    changes: tuple  # of names of methods and functions, which get the meter, the method before and its arguments
    weight: str = ORDINARY
    reason: str = ""
    tariff: str = "city"  # under which it is tried

    def meter(self):
        """The class of the wrong meter."""
        kind = Watched
        for changes in self.changes:
            kind = type("Wrong", (kind,), {name: changed(kind, name, change) for name, change in changes.items()})
        return kind


def changed(kind, name, change):
    """A method, or another value of the meter, in the place of the one before."""
    if not callable(change):
        return change
    was = getattr(kind, name)
    return lambda my, *words: change(my, lambda *others: was(my, *others), *words)


def wrong(name, weight=ORDINARY, reason="", tariff="city", **changes):
    return Fault(name, (changes,), weight, reason, tariff)


def both(one, other, name=""):
    """Two faults in one meter."""
    return Fault(name or f"{one.name}; {other.name}", one.changes + other.changes)


def after(effect):
    """A change that does something more once the method has been carried out and, if it is a key's, was taken."""

    def change(my, was, *words):
        taken = was(*words)
        if taken or taken is None:
            effect(my, *words)
        return taken

    return change


def every_tick(my, was, pulses):
    """For a meter whose intervals depend on those before."""
    return 1


def speed(my, pulses):
    """In km/h."""
    return 36_000 * pulses / my.constant


def kilometres(my):
    return my.trip.pulses / my.constant


def is_summer(my):
    return my.offset(my.known[0]) > min(offset for _, offset in my.offsets)
