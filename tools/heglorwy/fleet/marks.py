"""What `fleet` keeps in a taxi's folder beside its store, and the lock of the folder.

  begun          the drive that has begun, with NUMBER, HIRINGS and the roll's length from before it: an object of JSON
  done           a line for each drive that is never carried out again, with NUMBER and HIRINGS behind it
  opening.store  the store as it was before the drive that has begun
  opening.totals the totals from which the roll goes on

Each is on the medium before the next step is taken. The folder's lock is held while somebody writes there, and by the
program of a run for as long as it lives: so `begun` without the lock is of a run that broke off."""

import collections
import contextlib
import fcntl
import hashlib
import json
import os
import pathlib
import re
import time

BEGUN, DONE, ROLL, LEFT = "begun", "done", "roll", "left.drive"
STORE, OPENING_STORE, OPENING_TOTALS = "taxi.store", "opening.store", "opening.totals"
LINE = re.compile(rb"([0-9a-f]{64}) (done|broken) NUMBER ([0-9]+) HIRINGS ([0-9]+) ")
OLDER = re.compile(rb"([0-9a-f]{64})  (.*)\n", re.DOTALL)  # as `sha256sum` writes it, and as versions before did

# A drive that has begun. `opening` is the SHA-256 of the opening store; `printed` is the roll's length at the end of
# what the run printed, once somebody has looked. Of an older mark nothing is known behind the drive's name.
Begun = collections.namedtuple("Begun", "sha256 drive tariff number hirings roll opening printed", defaults=[None] * 6)
# A line of `done`: whether the drive was carried out whole or is broken, and NUMBER and HIRINGS behind it.
Done = collections.namedtuple("Done", "ended number hirings")


class AtWork(Exception):
    """Somebody holds the folder's lock."""

    def __str__(self):
        return "a run is at work"


class Unknown(Exception):
    """A mark that isn't as this tool writes it, and what of it."""


@contextlib.contextmanager
def folder_of(name):
    opened = os.open(name, os.O_RDONLY | os.O_DIRECTORY)
    try:
        yield opened
    finally:
        os.close(opened)


@contextlib.contextmanager
def alone_in(name):
    """Holds the folder's lock. Who only asks for it has it for a moment, which is waited for."""
    with folder_of(name) as opened:
        for tries_left in (3, 2, 1, 0):
            try:
                fcntl.flock(opened, fcntl.LOCK_EX | fcntl.LOCK_NB)
                break
            except BlockingIOError:
                if not tries_left:
                    raise AtWork from None
                time.sleep(0.1)
        yield opened


def is_at_work(name):
    """Whether somebody holds the folder's lock now."""
    with folder_of(name) as opened:
        try:
            fcntl.flock(opened, fcntl.LOCK_SH | fcntl.LOCK_NB)
        except BlockingIOError:
            return True
    return False


def sha256_of(text):
    return hashlib.sha256(text).hexdigest()


def sync_names(folder):
    """Waits until the names in a folder are on the medium."""
    with folder_of(folder) as opened:
        os.fsync(opened)


def replace_synced(path, text, mode=0o644):
    """Puts a text under a name, whole or not at all, and waits until both are on the medium."""
    new = path.with_name(path.name + ".new")
    opened = os.open(new, os.O_WRONLY | os.O_CREAT | os.O_TRUNC, mode)
    with os.fdopen(opened, "wb") as file:
        file.write(text)
        file.flush()
        os.fsync(opened)
    os.replace(new, path)
    sync_names(path.parent)


def append_synced(path, line):
    """Puts a line behind a text, and waits until it is on the medium. A last line that was torn is ended first."""
    with open(path, "a+b") as file:
        if file.seek(0, os.SEEK_END):
            file.seek(-1, os.SEEK_END)
            line = line if file.read(1) == b"\n" else b"\n" + line
        file.write(line)
        file.flush()
        os.fsync(file.fileno())
    sync_names(path.parent)


def take_away(path):
    path.unlink()
    sync_names(path.parent)


def begun_in(folder):
    """The drive that has begun in a folder, or None."""
    try:
        text = pathlib.Path(folder, BEGUN).read_bytes()
    except FileNotFoundError:
        return None
    older = OLDER.fullmatch(text)
    if older:
        return Begun(older[1].decode(), os.fsdecode(older[2]))
    try:
        return Begun(**json.loads(text))
    except (ValueError, TypeError):
        raise Unknown(f"{BEGUN} is no mark of a drive") from None


def write_begun(folder, begun):
    replace_synced(folder / BEGUN, json.dumps(begun._asdict()).encode() + b"\n")


def lines_of_done(folder):
    try:
        return pathlib.Path(folder, DONE).read_bytes().split(b"\n")
    except FileNotFoundError:
        return []


def ended_before(folder, sha256):
    """How a drive ended that is never carried out again: `done`, `broken`, or `torn` as its line is. None of others."""
    ended = None
    for line in lines_of_done(folder):
        if line[:64] == sha256.encode():
            found = LINE.match(line)
            if found or OLDER.match(line + b"\n"):
                return found[2].decode() if found else "done"
            ended = "torn"
    return ended


def last_done(folder):
    """What `done` says last of the store, or None where no line of it says anything."""
    found = [match for match in map(LINE.match, lines_of_done(folder)) if match]
    return Done(found[-1][2].decode(), int(found[-1][3]), int(found[-1][4])) if found else None


def write_done(folder, begun, done):
    """Writes down, once, that a drive is never carried out again."""
    if ended_before(folder, begun.sha256) in ("done", "broken"):
        return
    behind = f"{done.ended} NUMBER {done.number} HIRINGS {done.hirings}" if done else ""
    append_synced(folder / DONE, f"{begun.sha256} {behind} {json.dumps(begun.drive)}\n".encode())
