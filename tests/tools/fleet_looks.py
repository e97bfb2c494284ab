"""What `check`, `receipts` and `--machines` tell of taxis at which something is wrong."""

import json
import os

from support.fleets import BEGINS, NAMES, TARIFF, TOP, expect, fleet, taxi, taxis, tree, trips

DAY = 86_400
RUN = ["run", "--tariff", TARIFF]
CHECK = ["check", "--today", "2026-03-02", "--tariff", TARIFF]
SEAL = ["seal", "--tariff", TOP / "examples/simple.tariff"]
AGAIN = "has the number of another one"


def runs(place, folders, number):
    """Carries out a drive of the so-many-th day in each folder."""
    for folder in folders:
        (place / folder / f"day {number}").write_text(trips(BEGINS + number * DAY, 3))
    rows, status, _ = fleet(*RUN, "--drive", f"day {number}", *folders, folder=place)
    expect("runs", (status, {row["status"] for row in rows}), (0, {"0"}))


def numbers(folder):
    """NUMBER and HIRINGS of a store."""
    lines = taxi(folder, "totals")[0].splitlines()
    return [line.split(" ")[1] for line in lines if line.startswith(("NUMBER ", "HIRINGS "))]


def checked(place, folders):
    """The status and the findings of each taxi."""
    rows, status, said = fleet(*CHECK, *folders, folder=place)
    expect("check says", said, "")
    expect("check's status", status, 1 if any(row["status"] != "0" for row in rows) else 0)
    return [(row["status"], row["why"]) for row in rows]


def put_back(place):
    """A copy that is put back is told at once, behind one more drive, and when the store has caught up."""
    (folder,) = taxis(place, ["HG 1"], "")
    store = place / folder / "taxi.store"
    runs(place, [folder], 0)
    kept, old = store.read_bytes(), numbers(place / folder)
    runs(place, [folder], 1)
    new = numbers(place / folder)
    expect("check of a taxi as it is", checked(place, [folder]), [("0", "")])
    store.write_bytes(kept)
    ((status, why),) = checked(place, [folder])
    first = "NUMBER and HIRINGS are {} and {}, and were {} and {} behind the last drive".format(*old, *new)
    signs = ["3 more receipts than hirings", first, f"receipt {new[0]} is above NUMBER, which is {old[0]}"]
    expect("a copy put back", (status, why), ("11", "; ".join(signs) + ": was a copy put back?"))
    for number in (2, 3):
        runs(place, [folder], number)
        ((status, why),) = checked(place, [folder])
        expect(f"a copy put back, behind drive {number}", (status, AGAIN in why), ("11", True))
    rows, status, said = fleet("receipts", folder, folder=place)
    expect("receipts of it", (status, len(rows), AGAIN in said), (1, 12, True))
    (place / folder / "done").unlink()
    store.write_bytes(kept)
    ((status, why),) = checked(place, [folder])
    expect("without done", (status, f"is above NUMBER, which is {old[0]}: was a copy" in why), ("11", True))
    print("fleet: a copy that was put back was told")


def run_twice(place):
    """A drive that is run twice past the tool, or with another text, is told by its seconds."""
    folders = taxis(place, ["past", "text"], trips(BEGINS, 2))
    rows, status, _ = fleet(*RUN, *folders, folder=place)
    expect("runs", status, 0)
    with (place / "past/roll").open("a") as roll:
        roll.write(taxi(place / "past", "run", TARIFF, "drive")[0])
    (place / "text/again").write_text("# again\n" + trips(BEGINS, 2))
    expect("another text", fleet(*RUN, "--drive", "again", "text", folder=place)[1], 0)
    for status, why in checked(place, folders):
        expect("a drive that was run twice", (status, "starts before the one above it finishes" in why), ("11", True))
    with (place / "text/roll").open("ab") as roll:
        roll.write((place / "text/roll").read_bytes())
    ((_, why),) = checked(place, ["text"])
    expect("receipts of a roll that has its own text twice", "receipts than hirings" in why, False)
    print("fleet: drives that were run twice were told")


def corrupt(place):
    """A store that can't be read is a row with the program's status, and keeps no other taxi from its row."""
    folders = taxis(place, ["HG 1", "HG 2", "HG 3"], trips(BEGINS, 1))
    image = bytearray((place / "HG 2/taxi.store").read_bytes())
    image[40] ^= 0x10
    image[552] ^= 0x10
    (place / "HG 2/taxi.store").write_bytes(image)
    statuses = {"run": ["0", "refused", "0"], "settle": ["0", "0", "0"]}
    for words in (["totals"], ["sealed"], ["check"], RUN, SEAL, ["settle"]):
        rows, _, _ = fleet(*words, *folders, folder=place)
        wanted = statuses.get(words[0], ["0", "5", "0"])
        expect(f"{words[0]} of a fleet with a corrupt store", [row["status"] for row in rows], wanted)
        expect(f"{words[0]} of it", "BAD STORE" in rows[1]["why"] or words[0] == "settle", True)
    expect("the corrupt store", (place / "HG 2/taxi.store").read_bytes(), bytes(image))
    print("fleet: a corrupt store stood in a row of its own")


def held(place):
    """A held trip has a column, and a folder that isn't there a row."""
    taxis(place, ["HG 1"], f"U {BEGINS}\nK H\nI 20 50\n")
    expect("a run", fleet(*RUN, "HG 1", folder=place)[1], 0)
    rows, _, _ = fleet(*CHECK, "HG 1", "none", folder=place)
    found = [(row["status"], row["held"], row["begun"]) for row in rows]
    expect("a held trip", found, [("0", "yes", "no"), ("none", "", "")])
    for text in (b"", b"NUMBER\n", b"\xff", b"HIRINGS x\nFARE 0.00\nSUPPLEMENTS 0.00\n"):
        (place / "HG 1/opening.totals").write_bytes(text)
        expect(f"totals before of {text}", checked(place, ["HG 1"]), [("7", "opening.totals is no text of totals")])
    print("fleet: a held trip has its column")


def one_table(place):
    """The receipts of all rolls, with their folders; a roll of another taxi is told, and the others stand there."""
    folders = taxis(place, NAMES, trips(BEGINS, 2))
    expect("runs", fleet(*RUN, *folders, folder=place)[1], 0)
    rows, status, said = fleet("receipts", *folders, folder=place)
    expect("receipts", (status, said), (0, ""))
    expect("their folders", [row["folder"] for row in rows], [folder for folder in folders for _ in range(2)])
    roll = place / folders[1] / "roll"
    roll.write_text(roll.read_text().replace("TAXI HG-0815", "TAXI HG-0816", 1))
    rows, status, said = fleet("receipts", *folders, "./none", folder=place)
    expect("a roll of two taxis", (status, len(rows), said.count("\n")), (1, 2 * (len(folders) - 1), 2))
    print("fleet: the receipts of all rolls stand in one table")


def otherwise(place):
    """A folder that --machines names in another way isn't carried out here, nor anywhere."""
    (place / "fleet").mkdir()
    taxis(place / "fleet", ["HG 1", "HG 2"], trips(BEGINS, 1))
    os.symlink("fleet", place / "link")
    whole = str(place / "fleet/HG 1")
    (place / "machines.json").write_text(json.dumps({whole: "depot", "/elsewhere/HG 9": "depot"}))
    spelled = ["fleet/HG 1", "./fleet/HG 1", whole + "/", f"{place}/fleet/../fleet/HG 1", "/" + whole, "link/HG 1"]
    words = [*RUN, "--machines", "machines.json"]
    rows, status, _ = fleet(*words, *spelled, folder=place)
    for row in rows:
        wanted = ("refused", f"--machines names this folder as {whole}: name it so", "")
        expect(f"{row['folder']} beside an entry", (row["status"], row["why"], row["machine"]), wanted)
    expect("rows", (status, len(rows)), (1, len(spelled)))
    expect("what was carried out", sorted(os.listdir(place / "fleet/HG 1")), ["drive", "taxi.store"])
    rows, status, _ = fleet(*words, "fleet/HG 2", folder=place)
    expect("a folder that no entry names", (status, rows[0]["status"]), (0, "0"))
    (place / "machines.json").write_text(json.dumps({"fleet/HG 1": "depot"}))
    rows, _, _ = fleet(*words, whole, folder=place)
    expect("a relative entry", rows[0]["status"], "refused")
    print("fleet: folders that --machines names otherwise were refused")


def slow_build(place):
    """A tool that waits for a build says so, and one that needn't says nothing."""
    tool = tree(place / "tree", f'[ -e "{place}/built" ] || echo "NAME: proving" >&2; >"{place}/built"')
    (folder,) = taxis(place, ["HG 1"], "")
    _, status, said = fleet("totals", folder, folder=place, tool=tool)
    expect("what a tool says of a build", (status, said), (0, "fleet: waits for a build of bin/taxi\ntaxi: proving\n"))
    _, status, said = fleet("totals", folder, folder=place, tool=tool)
    expect("what it says without one", (status, said), (0, ""))
    (place / "tree/bin/taxi").write_text("#!/bin/sh\nexit 125\n")
    _, status, said = fleet("totals", folder, folder=place, tool=tool)
    expect("what it says where nothing was built", (status, "was not built" in said), (125, True))
    print("fleet: a wait for a build was said")


CASES = [put_back, run_twice, corrupt, held, one_table, otherwise, slow_build]
