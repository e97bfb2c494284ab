"""One drive of one taxi, carried out by the proved program at most once.

The store is kept and a mark is written in the taxi's folder before the program starts. The mark goes only where it is
known what was carried out: all of the drive, which is then written down as done, or nothing. Else it stays until
`fleet settle` has told what was carried out."""

import contextlib
import os
import pathlib
import subprocess

from heglorwy.fleet.marks import (
    BEGUN, DONE, OPENING_STORE, OPENING_TOTALS, ROLL, STORE, AtWork, Begun, Done, alone_in, ended_before,
    replace_synced, sha256_of, take_away, write_begun, write_done,
)
from heglorwy.fleet.stores import Unread, asked_of, image_of, totals_in, totals_of_image
from heglorwy.rest.left_drive import number_for
from heglorwy.program import TOP, Refused

NOTHING_WRITTEN = {1, 2, 4, 5, 6, 12, 125}  # at these statuses of `run` the store is as it was (docs/FORMATS.md)
WITHOUT_LINE = {8: "the store or the output failed", 125: "the program was not built"}


class NotBegun(Exception):
    """The program was not started, and why."""


def check_free(folder, sha256):
    """Refuses a drive that was carried out, and a folder in which a run broke off."""
    ended = ended_before(folder, sha256)
    if ended:
        was = "a part of it was" if ended == "broken" else "it was"
        raise NotBegun(f"this drive stands in {DONE}: {was} carried out")
    if (folder / BEGUN).exists():
        raise NotBegun("a run broke off: fleet settle says what was carried out")


def kept_store(folder):
    """Keeps the store as it is, and its totals where no roll goes on from others; and says both."""
    try:
        image = image_of(folder)
    except FileNotFoundError:
        raise Unread(*absent(folder)) from None
    totals = totals_of_image(image)
    if not (folder / ROLL).exists():
        replace_synced(folder / OPENING_TOTALS, totals)
    replace_synced(folder / OPENING_STORE, image, 0o600)
    return image, totals_in(totals)


def absent(folder):
    """What the program says where there is no store."""
    try:
        asked_of(folder, "totals")
    except Unread as why:
        return why.status, str(why)
    return 8, f"{STORE} came meanwhile"


def begin(folder, tariff, drive):
    """Keeps the store and sets the mark, where this drive may be carried out."""
    text = (folder / drive).read_bytes()
    sha256 = sha256_of(text)
    check_free(folder, sha256)
    try:
        image, totals = kept_store(folder)
    except Unread as why:
        raise NotBegun(f"{why} (totals ends with {why.status})") from None
    if number_for(text) not in (None, int(totals["number"])):
        raise NotBegun(f"this drive is left for NUMBER {number_for(text)}, and the store has NUMBER {totals['number']}")
    printed = (folder / ROLL).stat().st_size if (folder / ROLL).exists() else 0
    begun = Begun(sha256, drive, tariff, int(totals["number"]), int(totals["hirings"]), printed, sha256_of(image))
    write_begun(folder, begun)
    return begun


def carry_out(folder, begun, lock):
    """Runs the program, which prints behind the folder's roll and holds its lock; its status and its last line."""
    with open(folder / ROLL, "ab") as roll:
        status = subprocess.run(
            [TOP / "bin/taxi", "run", begun.tariff, begun.drive], cwd=folder, stdin=subprocess.DEVNULL, stdout=roll,
            stderr=subprocess.DEVNULL, check=False, pass_fds=[lock],
        ).returncode
        os.fsync(roll.fileno())
    with open(folder / ROLL, "rb") as roll:
        roll.seek(begun.roll)
        printed = roll.read().decode("ascii", "replace").splitlines()
    return status if status >= 0 else 128 - status, printed[-1] if printed else ""


def end(folder, begun, status):
    """Takes the mark away where all or nothing was carried out; tells whether it did."""
    if status == 0:
        write_done(folder, begun, done_behind(folder))
    if status != 0 and status not in NOTHING_WRITTEN:
        return False
    take_away(folder / BEGUN)
    return True


def done_behind(folder):
    """What the store has behind a drive that was carried out whole, where it can be read."""
    try:
        totals = totals_in(asked_of(folder, "totals"))
    except Unread:
        return None
    return Done("done", totals["number"], totals["hirings"])


def why_of(status, last):
    """Why a run ended so; its last line says so only where it is one of the program's faults."""
    if status > 128:
        return "killed"
    return WITHOUT_LINE.get(status, last or "it broke off")


def row_of_run(name, tariff, drive):
    """The row of a run whose folder and files can be read."""
    folder = pathlib.Path(name)
    try:
        with alone_in(folder) as lock:
            with open(folder / tariff, "rb"):  # what can't be read leaves no mark
                pass
            begun = begin(folder, tariff, drive)
            status, last = carry_out(folder, begun, lock)
            known = end(folder, begun, status)
    except (AtWork, NotBegun) as why:
        return {"status": "refused", "why": str(why)}
    if status == 0:
        return {"status": 0, "why": ""}
    return {"status": status, "why": why_of(status, last) + ("" if known else f"; {BEGUN} stays")}


def run_once(name, tariff, drive):
    """The row of a run: its status, or `refused` where the program was not started, and why."""
    try:
        return row_of_run(name, tariff, drive)
    except Refused as why:
        return {"status": why.status, "why": str(why)}
    except OSError as error:
        begun = ""
        with contextlib.suppress(OSError):
            begun = f"; {BEGUN} stays" if pathlib.Path(name, BEGUN).exists() else ""
        return {"status": "refused", "why": f"{pathlib.Path(error.filename or name).name}: {error.strerror}{begun}"}
