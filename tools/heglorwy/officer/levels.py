"""How well a hiring tells a wrong meter from a right one, by docs/FORMATS.md, "Verdicts"."""

NOT_TOLD, BY_REFUSAL, NOT_EQUAL, SHORT_OF_STEPS, NOT_PERMITTED = range(5)
SAID = ["not told", "by a refusal", "not equal", "not permitted, by fewer than 103 steps", "not permitted"]


def most(name, expected, step):
    """How far a reading may be off, in the units that are compared."""
    least, per = {"fare": (step, 1000), "distance": (4000, 500), "time": (2, 1000)}[name]
    return max(least, expected // per)


def level(right, wrong, step):
    """The level at which what a wrong meter shows of a hiring differs from what the right one shows. How it ended, its
    supplements, position, zone and refusals are compared exactly, as the readings do."""
    if (right.kind, right.supplements) != (wrong.kind, wrong.supplements):
        return NOT_PERMITTED
    for name, expected, shown in (("fare", right.fare, wrong.fare), ("distance", right.distance, wrong.distance)):
        if abs(shown - expected) > most(name, expected, step):
            return NOT_PERMITTED
    if (right.fare, right.distance) != (wrong.fare, wrong.distance):
        return NOT_EQUAL
    return BY_REFUSAL if right != wrong else NOT_TOLD
