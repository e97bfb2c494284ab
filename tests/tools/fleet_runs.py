"""Runs that break off, runs at work, and what `settle` makes of them."""

import base64
import contextlib
import json
import os
import pathlib
import resource
import shutil
import signal
import subprocess
import sys
import time
import unittest.mock

from heglorwy.fleet import marks as fleet_marks
from heglorwy.fleet import settle as fleet_settle
from support.fleets import BEGINS, TARIFF, TOOLS, expect, fleet, rows_in, taxi, taxis, tree, trips

RUN = ["run", "--tariff", TARIFF]
SEAL = ["seal", "--tariff", TARIFF]
LEFT = [*RUN, "--drive", "left.drive"]
CHECK = ["check", "--today", "2026-03-02", "--tariff", TARIFF]
TRIPS = 12
BROKE_OFF = "a run broke off: fleet settle says what was carried out"


def row_of(words, folder, place):
    """The one row of a call for one folder, and the tool's status."""
    rows, status, _ = fleet(*words, folder, folder=place)
    return rows[0], status


def receipts_in(folder):
    """The receipts of a folder's roll, which have to be in order."""
    rows, status, said = fleet("receipts", folder, folder=folder)
    expect("receipts", (status, said), (0, ""))
    return [{name: text for name, text in row.items() if name != "folder"} for row in rows]


def twin_of(folder):
    """What a folder's drive comes to that doesn't break off: the totals, and the receipts in the order of the roll."""
    twin = folder.with_name(folder.name + " twin")
    shutil.copytree(folder, twin)
    roll, status = taxi(twin, "run", TARIFF, "drive")
    expect("a twin", status, 0)
    (twin / "roll").write_text(roll)
    return taxi(twin, "totals"), receipts_in(twin)


def broken(place, name, size):
    """A folder whose run was ended when its roll had so many bytes, and what its whole drive comes to."""
    taxis(place, [name], trips(BEGINS, TRIPS))
    wanted = twin_of(place / name)
    job = json.dumps([str(place / name), str(TARIFF), "drive"]).encode()
    done = subprocess.run(
        [TOOLS["fleet"], "one", base64.urlsafe_b64encode(job)], capture_output=True, check=False,
        preexec_fn=lambda: resource.setrlimit(resource.RLIMIT_FSIZE, (size, size)),
    )
    row = json.loads(done.stdout.partition(b" ")[2])
    expect("a run that broke off", (row["status"], row["why"]), (128 + signal.SIGXFSZ, "killed; begun stays"))
    expect("its roll", (place / name / "roll").stat().st_size, size)
    return place / name, wanted


def settles(folder, wanted):
    """Settles a run that broke off, and carries out what is left: all has to be as of the whole drive."""
    row, status = row_of(CHECK, folder, folder)
    expect("check", (status, row["status"], row["begun"]), (1, "11", "yes"))
    expect("what it says first", row["why"].split("; ")[0], "a run broke off")
    row, status = row_of(RUN, folder, folder)
    expect("a run in its folder", (row["status"], row["why"]), ("refused", BROKE_OFF))
    row, status = row_of(["settle"], folder, folder)
    expect("settle", (status, row["why"], (folder / "begun").exists()), (0, "", False))
    again, _ = row_of(RUN, folder, folder)
    expect("the drive again", (again["status"], "a part of it was" in again["why"]), ("refused", True))
    if row["left"] == "left.drive":
        ran, _ = row_of(LEFT, folder, folder)
        expect("what is left", (ran["status"], ran["why"]), ("0", ""))
        expect("what is left, again", row_of(LEFT, folder, folder)[0]["status"], "refused")
    ends_as(folder, wanted)
    return row


def ends_as(folder, wanted):
    """Totals and receipts have to be those of the whole drive, and nothing may be left to look at."""
    expect("totals", taxi(folder, "totals"), wanted[0])
    expect("receipts", receipts_in(folder), wanted[1])
    row, status = row_of(CHECK, folder, folder)
    expect("check behind it", (status, row["why"], row["begun"]), (0, "", "no"))


def torn(place):
    """Runs whose output ended at a byte: within a receipt, directly behind one, in a display, in the last receipt."""
    taxis(place, ["whole"], trips(BEGINS, TRIPS))
    whole = taxi(place / "whole", "run", TARIFF, "drive")[0]
    ends = [at + 4 for at in range(2500, len(whole)) if whole.startswith("END\n", at)]
    sizes, shapes = [ends[1] - 100, ends[0], ends[1] + 9, ends[-1] - 1], set()
    for name, size in zip(("HG 1", "a;touch made", "line\nend", "é"), sizes):
        folder, wanted = broken(place, name, size)
        row = settles(folder, wanted)
        shapes.add((row["torn"] != "", row["left"]))
    expect("torn and left", sorted(shapes), [(False, "left.drive"), (True, "left.drive"), (True, "nothing")])
    print("fleet: runs whose output ended early were settled")


def children(number):
    """A process and all that it started; some may have ended meanwhile."""
    found = [number]
    with contextlib.suppress(OSError):
        for path in pathlib.Path(f"/proc/{number}/task").glob("*/children"):
            for child in path.read_text().split():
                found += children(int(child))
    return found


def words_of(number):
    with contextlib.suppress(OSError):
        return pathlib.Path(f"/proc/{number}/cmdline").read_bytes().split(b"\0")
    return []


def wait_for(what, is_so):
    for _ in range(6000):
        if is_so():
            return
        time.sleep(0.01)
    sys.exit(f"fleet: {what} didn't come")


def gated(place):
    """The tool with a program that waits for the file `gate` before a run, as long as the folder is there."""
    wait = f'until [ -e "{place}/gate" ] || [ ! -d "{place}" ]; do sleep 0.02; done'
    return tree(place / "tree", f'[ "$1" != run ] || {wait}')


@contextlib.contextmanager
def waiting(tool, place, *words):
    """A run whose program waits at the gate, and the process of that program."""
    with subprocess.Popen([tool, *words], cwd=place, stdout=subprocess.PIPE) as run:
        meters = []

        def is_there():
            program = str(tool.parent.parent / "bin/taxi").encode()
            meters[:] = [number for number in children(run.pid) if words_of(number)[1:3] == [program, b"run"]]
            return bool(meters)

        try:
            wait_for("a program that waits", is_there)
            yield run, meters[0]
        except BaseException:  # then nobody is to wait any longer
            (place / "gate").write_text("")
            raise


def left_alone(place):
    """The tool is killed and the program goes on: it is at work until it ends, and then its run broke off."""
    taxis(place, ["a b"], trips(BEGINS, TRIPS))
    folder = place / "a b"
    wanted = twin_of(folder)
    with waiting(gated(place), place, *RUN, "a b") as (run, _):
        row, _ = row_of(RUN, folder, place)
        expect("a second run", (row["status"], row["why"]), ("refused", "a run is at work"))
        for number in children(run.pid):
            if b"one" in words_of(number) and b"python3" in words_of(number)[0]:
                os.kill(number, signal.SIGKILL)
        row = rows_in(run.stdout.read().decode())[0]
        expect("a run whose tool was killed", row["status"], "unknown")
    for words, status in ((RUN, "refused"), (CHECK, "11"), (["settle"], "refused"), (SEAL, "refused")):
        row, _ = row_of(words, folder, place)
        expect(f"{words[0]} of a folder at work", (row["status"], row["why"]), (status, "a run is at work"))
    (place / "gate").write_text("")
    wait_for("the end of a run", lambda: not fleet_marks.is_at_work(folder))
    row = settles(folder, wanted)
    expect("what is left of a drive that went on", (row["left"], row["torn"], row["missing"]), ("nothing", "", ""))
    print("fleet: a program whose tool was killed was waited for")


def at_once(place):
    """Two calls side by side over the same folders carry out each drive once."""
    folders = taxis(place, [f"HG {number}" for number in range(6)], trips(BEGINS, TRIPS))
    wanted = twin_of(place / "HG 0")[0]
    words = [TOOLS["fleet"], *RUN, *folders]
    with subprocess.Popen(words, cwd=place, stdout=subprocess.PIPE) as one:
        with subprocess.Popen(words, cwd=place, stdout=subprocess.PIPE) as other:
            rows = zip(rows_in(one.stdout.read().decode()), rows_in(other.stdout.read().decode()))
    for pair in rows:
        expect("two runs at once", sorted(row["status"] for row in pair), ["0", "refused"])
        refused = next(row["why"] for row in pair if row["status"] != "0")
        known = ("a run is at work", "this drive stands in done: it was carried out")
        expect("why the second is refused", refused in known, True)
    for folder in folders:
        expect("totals behind two runs at once", taxi(place / folder, "totals"), wanted)
    print("fleet: two calls at once carried out each drive once")


def twice_broken(place):
    """What is left breaks off too, before it does anything. What was left of another NUMBER is refused."""
    folder, wanted = broken(place, "HG 1", 3000)
    expect("a settling", row_of(["settle"], folder, place)[0]["left"], "left.drive")
    left = (folder / "left.drive").read_bytes()
    with waiting(gated(place), place, *LEFT, "HG 1") as (run, meter):
        os.kill(meter, signal.SIGKILL)
        row = rows_in(run.stdout.read().decode())[0]
    expect("a program that was killed", (row["status"], row["why"]), ("137", "killed; begun stays"))
    row, _ = row_of(["settle"], folder, place)
    expect("a second settling", (row["status"], row["why"], row["carried_out"]), ("0", "", "0"))
    expect("what is left of what was left is another text", (folder / "left.drive").read_bytes() != left, True)
    row, _ = row_of(LEFT, folder, place)
    expect("what is left in the end", (row["status"], row["why"]), ("0", ""))
    ends_as(folder, wanted)
    (folder / "late").write_bytes(left + b"# another text\n")
    row, _ = row_of([*RUN, "--drive", "late"], folder, place)
    expect("what was left of another NUMBER", (row["status"], "is left for NUMBER" in row["why"]), ("refused", True))
    print("fleet: what was left broke off too")


class Cut(BaseException):
    """The tool ends amid its work."""


class Asked:
    """What `settle` is asked for."""

    tariff, without_rest = None, False


def cut_at(number, work):
    """Does a work until its so-many-th change of a file or a name; tells whether it came to that."""
    left = iter(range(number))

    def cut(call):
        def cut_call(*words, **more):
            if next(left, None) is None:
                raise Cut
            return call(*words, **more)

        return cut_call

    with unittest.mock.patch.multiple(os, fsync=cut(os.fsync), replace=cut(os.replace), unlink=cut(os.unlink)):
        try:
            work()
        except Cut:
            return True
    return False


@contextlib.contextmanager
def answered_once():
    """Answers of tools/rest are kept, for each call the same."""
    kept, asked = {}, fleet_settle.asked_rest

    def answer(folder, begun, printed, tariff):
        words = (begun._replace(printed=None), printed, tariff, (folder / begun.drive).read_bytes())
        if words not in kept:
            kept[words] = asked(folder, begun, printed, tariff)
        return kept[words]

    with unittest.mock.patch.object(fleet_settle, "asked_rest", answer):
        yield kept


def settled_in_pieces(place):
    """A settling that ends at each of its steps, and is begun anew, does what a whole one does; of the drive, and of
    what was left of it, which is under the name that is written."""
    folder, wanted = broken(place, "HG 1", 3000)
    for drive in ("drive", "left.drive"):
        if drive == "left.drive":
            with waiting(gated(place), place, *LEFT, "HG 1") as (run, meter):
                os.kill(meter, signal.SIGKILL)
                run.stdout.read()
        with answered_once() as kept:
            steps = pieces(place, folder)
            expect("calls of rest", len(kept), 1)
        expect("a settling", row_of(["settle"], folder, place)[1], 0)
        print(f"fleet: a settling of {drive} was cut at each of its {steps} steps")
    (place / "gate").write_text("")
    expect("what is left", row_of(LEFT, folder, place)[0]["status"], "0")
    ends_as(folder, wanted)


def pieces(place, folder):
    """Cuts settlings of copies of a folder, one step later each; gives the number of steps."""
    whole, piece = place / "whole", place / "piece"
    shutil.rmtree(whole, ignore_errors=True)
    shutil.copytree(folder, whole)
    expect("a whole settling", fleet_settle.settle(whole, Asked)["status"], 0)
    number, is_cut = 0, True
    while is_cut:
        shutil.copytree(folder, piece)
        is_cut = cut_at(number, lambda: fleet_settle.settle(piece, Asked))
        expect(f"a settling behind a cut at step {number}", fleet_settle.settle(piece, Asked)["status"], 0)
        for name in ("roll", "done", "left.drive", "taxi.store"):
            expect(f"{name} behind a cut at step {number}", (piece / name).read_bytes(), (whole / name).read_bytes())
        expect(f"begun behind a cut at step {number}", (piece / "begun").exists(), False)
        shutil.rmtree(piece)
        number += 1
    return number - 1


def unsettled(place):
    """Folders with runs of which can't be told what is left: a line that isn't allowed, an older mark, a drive that was
    changed, an opening store that is another one."""
    names = ["bad", "older", "changed", "opening"]
    taxis(place, names, trips(BEGINS, 1))
    (place / "bad/drive").write_text(f"U {BEGINS}\nK H\nI 20 50\nI 20\n")
    row, _ = row_of(RUN, "bad", place)
    expect("a drive with a bad line", (row["status"], row["why"]), ("3", "BAD DRIVE 4; begun stays"))
    older = subprocess.run(["sha256sum", "drive"], cwd=place / "older", capture_output=True, check=True)
    (place / "older/begun").write_bytes(older.stdout)
    for name in ("changed", "opening"):
        shutil.copy(place / name / "taxi.store", place / name / "opening.store")
        drive, store = (fleet_marks.sha256_of((place / name / file).read_bytes()) for file in ("drive", "taxi.store"))
        fleet_marks.write_begun(place / name, fleet_marks.Begun(drive, "drive", str(TARIFF), 0, 0, 0, store))
    (place / "changed/drive").write_text("")
    (place / "opening/opening.store").write_bytes(b"\xa5" * 2048)
    return names


def untold(place):
    """Runs of which can't be told what is left stay until that is said; the drive is refused from then on."""
    for name in unsettled(place):
        row, status = row_of(["settle"], name, place)
        expect(f"settle of {name}", (status, row["status"], row["why"].endswith("; begun stays")), (1, "refused", True))
        expect(f"begun of {name}", (place / name / "begun").exists(), True)
        row, status = row_of(["settle", "--without-rest"], name, place)
        expect(f"settle of {name} without rest", (status, row["status"], row["left"]), (0, "0", ""))
        expect(f"begun of {name}", (place / name / "begun").exists(), False)
    for name in ("bad", "older"):
        row, _ = row_of(RUN, name, place)
        expect(f"the drive of {name} again", (row["status"], "a part of it was" in row["why"]), ("refused", True))
    (place / "bad/begun").write_text("")
    row, _ = row_of(["settle", "--without-rest"], "bad", place)
    expect("an empty mark", (row["status"], row["why"]), ("refused", "begun is no mark of a drive"))
    print("fleet: runs of which nothing can be told stayed until that was said")


def older_done(place):
    """A line of an older version, and one that was torn, keep their drives from being carried out."""
    taxis(place, ["older", "torn"], trips(BEGINS, 1))
    for name in ("older", "torn"):
        digest = fleet_marks.sha256_of((place / name / "drive").read_bytes())
        (place / name / "done").write_text(f"{digest}  drive\n" if name == "older" else f"{digest} brok")
        expect(f"the drive of a line that is {name}", row_of(RUN, name, place)[0]["status"], "refused")
    (place / "torn/next").write_text(f"U {BEGINS}\n")
    expect("another drive", row_of([*RUN, "--drive", "next"], "torn", place)[0]["status"], "0")
    expect("another drive again", row_of([*RUN, "--drive", "next"], "torn", place)[0]["status"], "refused")
    expect("the drive of a torn line", row_of(RUN, "torn", place)[0]["status"], "refused")
    print("fleet: older and torn lines of done keep their drives")


CASES = [torn, left_alone, at_once, twice_broken, settled_in_pieces, untold, older_done]
