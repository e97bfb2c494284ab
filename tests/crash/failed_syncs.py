"""Cuts behind a sync that failed, for tests/crash/cuts: further programs open the store, read it and run on it, each on what the
one before has left, and the power is cut under each of them."""

import collections
import os
import pathlib
import shutil

import medium
from each_call import MORNING
from power_cuts import (

    MORNING_DRIVE, NEXT_DRIVE, PROGRAM, SEAL, STORE, TARIFF, TOP, Folder, check_run, check_sealing, receipts_in,
    traced,
)

# A program whose syncs fail: the contents that it begins with, its words, the numbers of the pairs of the store, and the
# check of what a cut behind it leaves, by the receipts that there are and the rows of totals, where they are known.
Subject = collections.namedtuple("Subject", "what contents words numbers check")
# Where a program left things: its folder, the moment it ended at, and the receipts that the store may have entries of.
Place = collections.namedtuple("Place", "folder moment receipts")
# Programs behind a failed sync, each with the calls of it that fail.
OPENING, ITS_FOLDER = "fsync:error=EIO:when=1", "fsync:error=EIO:when=2"
RUNS = [
    [("totals", ()), ("run", ())], [("run", ()), ("totals", ())], [("totals", [OPENING]), ("totals", ()), ("run", ())],
    [("run", [OPENING]), ("run", ())], [("totals", [ITS_FOLDER]), ("run", [OPENING]), ("totals", ())],
]
SEALINGS = [
    [("seal", ()), ("totals", ())], [("totals", ()), ("seal", ())],
    [("totals", [OPENING]), ("totals", [ITS_FOLDER]), ("seal", ())], [("seal", [OPENING]), ("seal", ())],
]


def store_of(folder):
    return os.path.realpath(os.path.join(folder.work, STORE))


def words_of(tried, name):
    return {"totals": ["totals"], "seal": SEAL, "run": ["run", TARIFF, os.path.join(tried.within, "next.drive")]}[name]


def receipts_up_to(tried, contents, receipts):
    """Those of some receipts whose entries a store has."""
    if not receipts:
        return []
    found = Folder(tried.within, contents)
    number = int(found.totals()[1]["NUMBER"])
    shutil.rmtree(found.top)
    return [receipt for receipt in receipts if receipt[0] <= number]


def go_on(tried, what, place, further, check, apart=False):
    """Programs that go on where another one ended, each behind the one before; tries the cuts under each."""
    for name, inject in further:
        contents = place.folder.relative(place.moment.medium.contents())
        folder, moments, said = traced(
            tried, contents, words_of(tried, name), killed=(place.moment.medium, place.folder), inject=inject,
            printed=place.moment.printed,
        )
        what = f"{what}, then {name}{' with a failed sync' if inject else ''}"
        receipts = receipts_up_to(tried, contents, place.receipts) + receipts_in(said)
        tried.each(what, moments, check(receipts, None), folder, 4, apart)
        place = Place(folder, moments[-1], receipts)


def calls_in(tried, contents, words):
    """The calls of a program on these contents."""
    folder = Folder(tried.within, contents)
    return medium.calls_of([PROGRAM, *words], folder.work, os.path.join(folder.top, "trace"))[0]


def to_read_alone(tried):
    """What lets `totals` find a file that may only be read: its opening to be written fails."""
    calls = calls_in(tried, {f"work/{STORE}": (0, bytes(2048))}, ["totals"])
    openings = [" ".join(fields) for name, fields, _ in calls if name == "openat"]
    return f"openat:error=EROFS:when={['O_RDWR' in fields for fields in openings].index(True) + 1}"


def try_failed(tried, subject, chains):
    """Each sync of a program fails in its turn, and others go on behind it: where it ended, and, counted apart, where it
    was killed between the failed sync and the new write."""
    what, contents, words, numbers, check = subject
    receipts = receipts_in(traced(tried, contents, words, numbers)[2])
    before, syncs = tried.cuts, sum(name in medium.SYNCS for name, *_ in calls_in(tried, contents, words))
    for turn in range(1, syncs + 1):
        if tried.is_over():
            return
        folder, moments, _ = traced(tried, contents, words, numbers, inject=[f"fsync:error=EIO:when={turn}"])
        failed = f"{what} in which sync {turn} fails"
        tried.each(failed, moments[-1:], check(receipts, MORNING), folder, 16)
        for further in (chains[0], chains[1 + turn % (len(chains) - 1)]):
            go_on(tried, failed, Place(folder, moments[-1], receipts), further, check)
        for moment in moments[:-1] if tried.writes_again else []:
            if moment.medium.has_given_up(store_of(folder)):
                go_on(tried, failed, Place(folder, moment, receipts), chains[0][:1], check, apart=True)
    print(f"{what} in which a sync fails, each of {syncs} in turn: {tried.cuts - before} cuts", flush=True)


def try_killed(tried, subject, chains):
    """A program is killed where something of the store is in flight, and the opening sync of the next one fails; counted
    apart, where that has the file open to be read alone."""
    what, contents, words, numbers, check = subject
    folder, moments, printed = traced(tried, contents, words, numbers)
    receipts, before, alone = receipts_in(printed), tried.cuts, to_read_alone(tried)
    moments = [moment for moment in moments if moment.medium.is_in_flight(store_of(folder))]
    for turn, moment in enumerate(moments if not tried.is_over() else []):
        place = Place(folder, moment, receipts)
        go_on(tried, f"{what} that is killed", place, chains[turn % len(chains)], check)
        if tried.writes_again:
            go_on(tried, what, place, [("totals", [alone, OPENING]), ("totals", ())], check, apart=True)
    print(f"{what} that is killed, and then an opening fails: {tried.cuts - before} cuts", flush=True)


def try_all(tried):
    """Tries runs, first sealings and later ones."""
    pathlib.Path(tried.within, "next.drive").write_text(NEXT_DRIVE)
    sealed = Folder(tried.within, {})
    sealed.run(*SEAL)
    contents, numbers = {f"work/{STORE}": sealed.store()}, {"totals": 1, "seal": 1}
    empty = (TOP / "examples/sealed.totals").read_text().rsplit("status", 1)[0]
    check_seal = lambda receipts, rows: check_sealing(empty)
    run = Subject("a run", contents, ["run", TARIFF, MORNING_DRIVE], numbers, check_run)
    first = Subject("a first sealing", {}, SEAL, {"totals": 0, "seal": 0}, check_seal)
    try_failed(tried, run, RUNS)
    try_killed(tried, run, RUNS[2:4])
    try_failed(tried, first, SEALINGS)
    try_killed(tried, first, SEALINGS[2:])
    try_failed(tried, Subject("a sealing", contents, SEAL, numbers, check_seal), SEALINGS)
