"""What `fleet settle` does in a folder in which a run broke off: it tells by tools/rest what was carried out, writes
the drive down as broken, and takes the mark away.

Each step is on the medium before the next one, and a settling that is cut can be begun anew: how long the roll was at
the first one is kept in the mark, and receipts that were not printed whole are put behind that length."""

import re
import subprocess
import tempfile

from heglorwy.fleet.marks import (
    BEGUN, LEFT, OPENING_STORE, ROLL, AtWork, Done, Unknown, alone_in, append_synced, begun_in, ended_before,
    replace_synced, sha256_of, take_away, write_begun, write_done,
)
from heglorwy.fleet.stores import asked_of, there, totals_in
from heglorwy.program import TOP, Refused, read

SETTLED = ["number", "hirings", "carried_out", "whole", "torn", "missing", "left"]
RECEIPT = re.compile(r"receipt ([0-9]+): (whole|torn|missing)\n((?:[A-Z].*\n)*)")
NOTHING = {"status": 0, "why": "no run broke off"}


def printed_by(folder, begun):
    """What the run printed, and the mark with the roll's length behind it. Zeros that a cut of the power left at the
    roll's end were not printed."""
    if begun.roll is None:
        raise Refused("refused", f"{BEGUN} is of an older version, which kept no store")
    roll = read(folder / ROLL) if (folder / ROLL).exists() else b""
    if len(roll) < begun.roll:
        raise Refused("refused", f"{ROLL} has {len(roll)} bytes, and had {begun.roll} before the run")
    if begun.printed is None:
        length = begun.roll + len(roll[begun.roll :].rstrip(b"\0"))
        begun = begun._replace(printed=length)
        write_begun(folder, begun)
    return roll[begun.roll : begun.printed], begun


def check_kept(folder, begun):
    """Refuses a drive and an opening store that are others than those of the run."""
    for name, sha256 in ((begun.drive, begun.sha256), (OPENING_STORE, begun.opening)):
        if sha256_of(read(folder / name)) != sha256:
            raise Refused("refused", f"{name} is another one than that of the run")


def asked_rest(folder, begun, printed, tariff):
    """What tools/rest prints, which is what is left of the drive, and what it says."""
    with tempfile.NamedTemporaryFile(prefix="taxi-") as roll:
        roll.write(printed)
        roll.flush()
        words = ["--tariff", folder / tariff, "--opening", folder / OPENING_STORE]
        done = subprocess.run(
            [TOP / "tools/rest", *words, "--", folder, folder / begun.drive, roll.name], stdin=subprocess.DEVNULL,
            capture_output=True, check=False,
        )
    said = done.stderr.decode("utf-8", "replace")
    if done.returncode:
        raise Refused("refused", said.strip().rpartition("\n")[2] or f"rest ends with {done.returncode}")
    return done.stdout, said


def columns_of(said):
    """What became of each receipt, by the names of the columns, and the texts of those that were not printed whole."""
    states, texts = {"whole": [], "torn": [], "missing": []}, []
    for number, state, text in RECEIPT.findall(said):
        states[state].append(number)
        texts.append(text)
    row = {"whole": len(states["whole"]), "torn": " ".join(states["torn"]), "missing": " ".join(states["missing"])}
    return row, "".join(texts).encode()


def put_receipts(folder, begun, texts):
    """Ends the roll with receipts that were not printed whole, behind what the run printed."""
    with open(folder / ROLL, "a+b") as roll:
        roll.truncate(begun.printed)
    if texts:
        append_synced(folder / ROLL, texts)


def with_origin(left, begun):
    """What is left, with a line that says of which drive, so that no two are the same text."""
    first, end, rest = left.partition(b"\n")
    return first + end + b"# OF " + begun.sha256.encode() + b"\n" + rest


def told(folder, begun, asked):
    """What was carried out, as columns, with the receipts that are wanting and what is left of the drive."""
    try:
        printed, begun = printed_by(folder, begun)
        check_kept(folder, begun)
        left, said = asked_rest(folder, begun, printed, asked.tariff or begun.tariff)
    except Refused as why:
        if not asked.without_rest:
            raise
        return {"why": str(why)}, begun, b"", None
    columns, texts = columns_of(said)
    return columns | {"left": LEFT if left else "nothing"}, begun, texts, left


def left_before(folder, begun):
    """What is left, where all but the last step was done before; else None."""
    ended = ended_before(folder, begun.sha256)
    if ended == "done":
        return "nothing"
    left = folder / LEFT
    is_left = left.exists() and left.resolve() == (folder / begun.drive).resolve()
    if ended == "broken" and is_left and sha256_of(read(left)) != begun.sha256:
        return LEFT
    return None


def settled(folder, begun, asked):
    """The row of a run that broke off, behind all that is done with it."""
    totals = totals_in(asked_of(folder, "totals"))
    row = {"number": totals["number"], "hirings": totals["hirings"]}
    if begun.hirings is not None:
        row["carried_out"] = int(totals["hirings"]) - begun.hirings
    left = left_before(folder, begun)
    if left:
        take_away(folder / BEGUN)
        return row | {"left": left}
    columns, begun, texts, left = told(folder, begun, asked)
    write_done(folder, begun, Done("broken", totals["number"], totals["hirings"]))
    if left is not None:
        put_receipts(folder, begun, texts)
    if left:
        replace_synced(folder / LEFT, with_origin(left, begun))
    take_away(folder / BEGUN)
    return row | columns


def settle(name, asked):
    """The row of a taxi whose run broke off; with a status other than 0 the mark stays."""
    folder = there(name)
    try:
        with alone_in(folder):
            begun = begun_in(folder)
            return {"status": 0, "why": ""} | settled(folder, begun, asked) if begun else NOTHING
    except (AtWork, Unknown) as why:
        return {"status": "refused", "why": str(why)}
    except Refused as why:
        return {"status": why.status, "why": f"{why}; {BEGUN} stays"}
