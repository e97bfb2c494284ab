"""What a run that broke off carried out of its drive, and what is left, as the proved program says on copies of stores.

An event commits at most once, and behind one that did the meter is off, or for hire with nothing counted and no key
waiting. So the drive is cut directly behind the last commit that the store has, and of the meter only clock, position and
zone are to be set again, and those only for hire. The program is asked where that is, and what they were. At the end
it carries out the whole drive on one copy and what is left on another, and both have to come to the same."""

import bisect
import collections
import os
import re

from heglorwy.rest.drive_places import Places
from heglorwy.rest.left_drive import number_for, with_number
from heglorwy.program import Differs, Refused, called, read
from heglorwy.rest.totals_slot import Totals, seals_in

LAST = 10**15  # a store of this NUMBER takes no hiring
RECEIPT = re.compile(rb"(?ms)^RECEIPT (\d+)$.*?^END\n")  # as a run prints it that isn't cut
TOO_MANY = b"P 65535\n"  # more pulses than an interval takes

# A run: the tariff, the opening store, the store as it is, the drive, and what was printed, each as bytes.
Run = collections.namedtuple("Run", "tariff opening store drive printed")
# What is left: the drive, how many commits were carried out, each of their receipts with its state in the roll, and the
# line in which what is left begins, or None where nothing is.
Left = collections.namedtuple("Left", "drive commits receipts line")


class Meter:
    """Carries out drives on copies of a store, in a folder of the program's own."""

    def __init__(self, taxi, tariff, image, name):
        self.taxi, self.tariff, self.image, self.name = taxi, tariff, image, name
        self.totals = self.checked()

    def checked(self):
        """The totals in the image, which have to be those that the program prints."""
        printed, status = self.taxi.call("totals", **{"taxi.store": self.image})
        lines = printed.decode().splitlines()
        if status:
            raise Refused(1, f"{self.name} is none that the program reads: {' '.join(['status', str(status), *lines])}")
        totals = Totals(self.image)
        if not {f"NUMBER {totals.number}", f"HELD {'yes' if totals.is_held else 'no'}"} <= set(lines):
            raise Differs(f"other totals are found in {self.name} than the program prints")
        return totals

    def run(self, drive):
        """What the program prints of a drive, and the totals that it leaves."""
        files = {"taxi.store": self.image, "tariff": self.tariff, "drive": drive}
        printed, status = self.taxi.call("run", "tariff", "drive", **files)
        if status:
            last = printed.decode("ascii", "replace").rstrip("\n").rpartition("\n")[2]
            raise Refused(1, f"over a copy of {self.name} the drive ends with status {status} {last}".rstrip())
        return printed, Totals(read(os.path.join(self.taxi.folder.name, "taxi.store")))


class Search:
    """Where the commits of a drive are made, over an opening store."""

    def __init__(self, meter, places):
        self.meter, self.places, self.counted = meter, places, {}

    def beginning(self, place):
        return self.places.cut(place)[0]

    def commits(self, place):
        """How many commits a beginning of the drive makes before the supply drops at its end, and whether the meter is
        powered there: then it refuses the pulses, but they have roamed or are a trip's, so the drop commits once."""
        if place not in self.counted:
            printed, totals = self.meter.run(self.beginning(place) + TOO_MANY)
            is_powered = printed.rstrip(b"\n").rpartition(b"\n")[2].startswith(b"REFUSED TOO FAST ")
            self.counted[place] = (totals.number - self.meter.totals.number - is_powered, is_powered)
        return self.counted[place]

    def place_of(self, commit):
        """The place directly behind a commit; None where the supply's drop at the drive's end makes it, or nothing does."""
        last = self.places.last
        if self.commits(last)[0] < commit:
            return None
        return bisect.bisect_left(range(last), commit, key=lambda place: self.commits(place)[0])

    def settings(self, place):
        """The lines that set a meter as it is for hire at a place. A trip that is hired there, and held at the end, says
        its second, its position and its zone."""
        number = self.meter.run(self.beginning(place))[1].number
        trip = self.meter.run(self.beginning(place) + b"K H\nT\n")[1]
        if trip.number != number + 1 or not trip.is_held or trip.has_counted():
            raise Differs("behind the last commit the meter isn't for hire with nothing counted")
        second, position, zone = trip.trip()
        keys = [(key, value) for key, value in (("P", position), ("Z", zone)) if value != 1]
        return b"".join([b"U %d\n" % second, *(b"K %s %d\nI 0 1\n" % (key.encode(), value) for key, value in keys)])

    def printed_before(self, commit):
        """How many bytes are printed in front of a commit: of its event refusals alone; None where any number may be."""
        place = self.place_of(commit)
        if place is None:
            return None
        before, behind = (self.meter.run(self.beginning(at))[0] for at in (place - 1, place))
        return len(before) + re.match(rb"(?:REFUSED [^\n]*\n)*", behind[len(before) :]).end()


def check_stores(opening, store, drive):
    """Refuses stores that aren't from before and behind one run of a drive."""
    first, last = opening.totals.number, store.totals.number
    if seals_in(opening.image) != seals_in(store.image):
        raise Refused(1, "the store was sealed again since the opening store was kept, or is of another taxi")
    if last < first:
        raise Refused(1, f"the opening store has NUMBER {first}, and the store NUMBER {last}: it is from behind the run")
    if last >= LAST:
        raise Refused(1, f"a store with NUMBER {last} takes no hiring")
    if number_for(drive) not in (None, first):
        raise Refused(1, f"the drive is left for NUMBER {number_for(drive)}, and the opening store has NUMBER {first}")


def check_roll(search, whole, printed, commits):
    """Refuses a roll that a run with so many commits can't have printed."""
    if not whole.startswith(printed):
        raise Refused(1, "the roll, behind its first BYTES, is no beginning of what the drive prints over the opening store")
    most = search.printed_before(commits + 1)
    if most is not None and len(printed) > most:
        raise Refused(1, "the roll has what is printed behind the next commit: an older copy was put back, or the opening "
                      "store is from behind the run")


def cut_off(search, store, commits):
    """What is left of the drive behind so many commits, with the lines in front that set the meter; and its line."""
    found = search.place_of(commits)
    place = search.places.last if found is None else found
    beginning, left = search.places.cut(place)
    if search.meter.run(beginning)[1].slot != store.totals.slot:
        raise Refused(1, "no beginning of the drive leaves what the store has: it is another drive or another opening store, "
                      "its input ended early, or something else was carried out since")
    if not left:
        return b"", None
    settings = search.settings(place) if search.commits(place)[1] else b""
    return with_number(store.totals.number, settings + left), bisect.bisect_right(search.places.ends, place) + 1


def state_of(receipt, printed):
    """What became of a receipt, where so many bytes were printed."""
    if receipt.end() <= printed:
        return "whole"
    return "torn" if receipt.start() < printed else "missing"


def left_of(run, taxi):
    """What is left of a run that broke off; refuses where that can't be told."""
    opening = Meter(taxi, run.tariff, run.opening, "the opening store")
    store = Meter(taxi, run.tariff, run.store, "taxi.store")
    check_stores(opening, store, run.drive)
    search = Search(opening, Places(run.drive))
    whole, wanted = opening.run(run.drive)
    commits = store.totals.number - opening.totals.number
    drive, line = cut_off(search, store, commits)
    check_roll(search, whole, run.printed, commits)
    receipts = list(RECEIPT.finditer(whole))
    numbers = [int(receipt[1]) for receipt in receipts]
    done = bisect.bisect_right(numbers, store.totals.number)
    printed, came = store.run(drive)
    if came.slot != wanted.slot or [each[0] for each in RECEIPT.finditer(printed)] != [each[0] for each in receipts[done:]]:
        raise Differs("what is left doesn't come to what the whole drive comes to")
    return Left(drive, commits, [(each, state_of(each, len(run.printed))) for each in receipts[:done]], line)


def store_in(folder):
    """The store of a folder, which the program reads and no meter has."""
    store = read(os.path.join(folder, "taxi.store"))
    printed, status = called("taxi", folder, "totals")
    if status:
        said = f"totals ends with status {status} {printed.decode().strip()}".rstrip()
        raise Refused(1, f"{folder}: {said}; see to that first")
    return store
