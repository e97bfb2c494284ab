"""The latest body of the totals in a store's image, by docs/STORE.md, "The totals' table"."""

SLOT = 512
OPEN = 0xA5
SEALS = 2 * SLOT  # here the slots of the seal begin
LENGTH = 4 * SLOT


class Totals:
    """What the latest slot of the totals has, in an image that the program reads."""

    def __init__(self, image):
        slots = [image[place : place + SLOT] for place in (0, SLOT)]
        self.slot = max((slot for slot in slots if slot[0] == OPEN), key=lambda slot: slot[1:9])
        self.number = self.field(1, 8)
        self.is_held = self.field(81, 81) == 1

    def field(self, first, last):
        return int.from_bytes(self.slot[first : last + 1], "big")

    def trip(self):
        """The held trip's first second, its tariff position and its zone."""
        return self.field(82, 89), self.field(99, 99), self.field(100, 100)

    def has_counted(self):
        """Whether the held trip has pulses or ticks, or pulses that roamed before it."""
        return any(self.field(*place) for place in ((101, 104), (105, 112), (113, 116)))


def seals_in(image):
    """The slots of the seal."""
    return image[SEALS:LENGTH]
