"""What `seal` does with taxis, and what it leaves alone."""

import shutil

from support.fleets import BEGINS, NAMES, PARAMS, TARIFF, TOP, expect, fleet, taxi, taxis, trips

SIMPLE = TOP / "examples/simple.tariff"


def sealed(place, *words, folders):
    """The status, why, seal and changes of each taxi."""
    rows, status, said = fleet("seal", *words, *folders, folder=place)
    expect("seal says", said, "")
    expect("seal's status", status, 1 if any(row["status"] != "0" for row in rows) else 0)
    return [(row["status"], row["why"], row["seal"], row["changes"]) for row in rows]


def digest_in(folder):
    return [line for line in taxi(folder, "sealed")[0].splitlines() if line.startswith("# TARIFF")]


def new_tariff(place):
    """Another tariff over the parameters that each store has, in folders with odd names, and not a second time."""
    folders = taxis(place, NAMES, "")
    before = taxi(place / folders[0], "sealed")[0].splitlines()
    rows = sealed(place, "--tariff", SIMPLE, "--dry-run", folders=folders)
    change = rows[0][3]
    expect("a dry run", rows, [("0", "", "1", change)] * len(folders))
    expect("what it changes", (change.startswith("tariff f2c587c4da64 -> "), len(change)), (True, 35))
    expect("the stores behind it", {taxi(place / name, "sealed")[0] for name in folders}, {"\n".join(before) + "\n"})
    rows = sealed(place, "--tariff", SIMPLE, folders=folders)
    expect("a seal", rows, [("0", "", "2", change)] * len(folders))
    behind = taxi(place / folders[0], "sealed")[0].splitlines()
    expect("the parameters", behind[3:], before[3:])
    rows = sealed(place, "--tariff", SIMPLE, folders=folders)
    expect("a second seal", rows, [("0", "", "2", "nothing")] * len(folders))
    expect("the seals behind it", {taxi(place / name, "sealed")[0].split("\n")[0] for name in folders}, {"# SEAL 2"})
    print("fleet: stores were sealed with a new tariff, once")


def trip_held(place):
    """A store that holds a trip is sealed when the trip has ended; a corrupt one and one of a broken run aren't."""
    folders = taxis(place, ["HG 1", "HG 2", "HG 3", "HG 4"], "")
    (place / "HG 2/drive").write_text(f"U {BEGINS}\nK H\nI 20 50\n")
    expect("a run", fleet("run", "--tariff", TARIFF, "HG 2", folder=place)[1], 0)
    (place / "HG 3/taxi.store").write_bytes(b"\xa5" * 2048)
    (place / "HG 4/begun").write_text("")
    rows = sealed(place, "--tariff", SIMPLE, folders=folders)
    why = "a run broke off: fleet settle says what was carried out"
    expect("seals", [row[0] for row in rows], ["0", "13", "5", "refused"])
    expect("why", [row[1] for row in rows if row[0] != "5"], ["", "TRIP HELD", why])
    expect("the store of the broken run", digest_in(place / "HG 4") == digest_in(place / "HG 1"), False)
    (place / "HG 2/end").write_text(f"U {BEGINS + 3600}\n")
    expect("its end", fleet("run", "--tariff", TARIFF, "--drive", "end", "HG 2", folder=place)[1], 0)
    rows = sealed(place, "--tariff", SIMPLE, folders=folders[:2])
    expect("seals behind it", [row[0] for row in rows], ["0", "0"])
    expect("both", digest_in(place / "HG 1"), digest_in(place / "HG 2"))
    print("fleet: held trips were told before a seal")


def parameters(place):
    """Parameters of each folder; those of another taxi, none, wrong ones, and a store that went away are refused."""
    folders = taxis(place, ["same", "new", "other", "none", "wrong", "lost", "first", "cut"], trips(BEGINS, 1))
    text = PARAMS.read_text()
    last = [line for line in text.splitlines() if line.startswith("offset ")][-1]
    texts = {
        "same": text, "new": text.replace("hold 120", "hold 60").replace(last + "\n", ""),
        "other": text.replace("HG-0815", "OTHER-1"), "wrong": text.replace("hold 120", "hold 700"), "lost": text,
        "first": text.replace("HG-0815", "FIRST-1"), "cut": text,
    }
    for name, params in texts.items():
        (place / name / "params").write_text(params)
    expect("a run", fleet("run", "--tariff", TARIFF, "lost", folder=place)[1], 0)
    for name in ("lost", "first"):
        (place / name / "taxi.store").unlink()
    (place / "cut/taxi.store").write_bytes(bytes(2048))
    found = sealed(place, "--tariff", TARIFF, "--params", "params", folders=folders)
    rows = dict(zip((name[2:] for name in folders), found))
    expect("the same", rows["same"], ("0", "", "1", "nothing"))
    expect("others", rows["new"], ("0", "", "2", "offsets 31 up to 2040-10-28 -> 30 up to 2040-03-25; hold 120 -> 60"))
    why = "the parameters are those of taxi OTHER-1, and the store is of HG-0815"
    expect("another taxi's", rows["other"][:2], ("refused", why))
    expect("none", (rows["none"][0], "No such file" in rows["none"][1]), ("7", True))
    expect("wrong ones", (rows["wrong"][0], rows["wrong"][1][:10]), ("9", "BAD PARAMS"))
    expect("a lost store", (rows["lost"][0], (place / "lost/taxi.store").exists()), ("refused", False))
    expect("a new store", rows["first"], ("0", "", "1", "a first seal"))
    expect("a first sealing that was cut", rows["cut"], ("0", "", "1", "a first seal"))
    expect("the taxi of another one's parameters", "taxi HG-0815" in taxi(place / "other", "sealed")[0], True)
    (place / "bad.tariff").write_text("step 0.10\n")
    rows = sealed(place, "--tariff", "bad.tariff", folders=["same", "nowhere"])
    expect("a bad tariff", [(row[0], row[1][:10]) for row in rows], [("2", "BAD TARIFF"), ("none", "there is n")])
    shutil.rmtree(place / "first")
    print("fleet: parameters were told and judged")


CASES = [new_tariff, trip_held, parameters]
