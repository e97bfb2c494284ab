"""For which faults the readings speak, and for which not."""

from heglorwy.officer.sheet import Cell, Facts, Table

HEADING = "What the readings speak for"
TARIFF = "wrong tariffs, as list.txt names them"


def spoken_for(judged):
    """What each hiring of a kit is for, and whether that is verified; what no hiring tells comes last."""
    if not judged.kit:
        said = "of these drives alone: without a kit nothing is said of faults that they don't show"
        return Facts(HEADING, [("They speak", said)])
    rows, states = [], {hiring.number: state_of(hiring) for hiring in judged.hirings}
    tariff = [drive for drive in judged.kit.drives if not drive.is_for_meter]
    rows += [row(of_tariff(tariff, states, is_good), TARIFF, is_good) for is_good in (True, False)]
    for drive in judged.kit.drives:
        for number, purposes in enumerate(drive.purposes, drive.first) if drive.is_for_meter else ():
            found = [row([number], purpose, False, states.get(number)) for purpose in purposes]
            rows += [[one[0]._replace(rows=0 if at else len(found)), *one[1:]] for at, one in enumerate(found)]
    rows += [row([], f"told by no drive: {text}", False, "not verified") for text in judged.kit.kit.untold]
    rows += [row([], f"left out: {text}", False, "not verified") for text in judged.kit.kit.left_out]
    return Table(HEADING, ["hirings", "told by them", "verified"], [one for one in rows if one])


def state_of(hiring):
    """What a hiring verifies."""
    if hiring.passes:
        return "verified"
    return "NOT READ" if not hiring.was_read else "NOT PASSED" if hiring.was_driven else "NOT DRIVEN"


def of_tariff(drives, states, is_good):
    return [drive.first for drive in drives if (states.get(drive.first) == "verified") == is_good]


def row(numbers, said, is_good, state=None):
    """A row; None for hirings of the tariff that there are none of."""
    if not numbers and said == TARIFF:
        return None
    state = state or ("verified" if is_good else "NOT VERIFIED")
    return [Cell(ranges(numbers)), Cell(said), Cell(state, state not in ("verified", "not verified"))]


def ranges(numbers):
    """Numbers as a person writes them: 1 to 4, 7."""
    found = []
    for number in sorted(numbers):
        if found and found[-1][1] == number - 1:
            found[-1][1] = number
        else:
            found.append([number, number])
    return ", ".join(f"{first}" if first == last else f"{first} to {last}" for first, last in found)
