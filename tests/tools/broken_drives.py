"""Random drives for runs that are broken off: hirings with every way to write an interval; keys that wait, are refused or
are lost; clocks back and forth; losses of supply within the hold, at its end, beyond it and before it; long ways for
hire; and trips that reach their longest time."""

LONGEST = 8_640_000  # ticks of a trip
MOST = 36_000  # intervals of a line
FIRST, LAST = 1_772_000_000, 1_800_000_000


class Drive:
    """The lines of a drive, with the second that its clock has come to."""

    def __init__(self, draw, hold, may_expire):
        self.draw, self.hold, self.may_expire = draw, hold, may_expire
        self.second, self.lines = draw.randrange(FIRST, LAST), []

    def put(self, *lines):
        self.lines += lines

    def happens(self, share):
        return self.draw.random() < share

    def any_of(self, *makers):
        self.draw.choice(makers)()

    def clock(self):
        self.second += self.draw.randrange(0, 4000)
        self.put(f"C {self.second}")
        if self.happens(0.1):  # back, which is refused in a trip
            self.put(f"C {self.second - self.draw.randrange(1, 9000)}")

    def key(self, name):
        """A key, another one while it waits now and then, and the interval at whose end it acts."""
        self.put(f"K {name}")
        if self.happens(0.1):
            self.put(f"K {self.draw.choice(['H', 'P 2', 'Z 2', 'E 1', 'C'])}")
        self.put(self.draw.choice(["I 0 1", "T", f"I {self.draw.randrange(30)} {self.draw.randrange(1, 4)}"]))

    def way(self, pulses, ticks):
        """A way, with an interval in front now and then that is written as its events, or has too many pulses."""
        if self.happens(0.15):
            self.put(f"P {pulses + 1}", *(["P 2100"] if self.happens(0.2) else []), "T")
        self.put(f"I {pulses} {ticks}")

    def loss(self):
        """A loss of supply, and what is done while it lasts."""
        if self.happens(0.2):
            self.put(self.draw.choice(["P 7", "K P 2", "K S", "K C", "K H"]))
        self.put("D")
        if self.happens(0.15):
            self.put(self.draw.choice(["T", "K H", "D", f"C {LAST}", "I 3 3"]))
        away = [self.draw.randrange(self.hold + 1), self.hold, self.hold + 1 + self.draw.randrange(9000), -5]
        self.second += self.draw.choices(away, [50, 10, 35, 5])[0]
        self.put(f"U {self.second}")

    def long_way(self):
        """A way for hire in which roaming is entered, amid a line or at a line that is a tick with a key waiting."""
        if self.happens(0.5):
            self.put(f"I {self.draw.randrange(1500, 2001)} {self.draw.randrange(400, 3000)}")
            return
        self.second += 7200
        key = self.draw.choice(["P 2", "Z 2", "H"])
        self.put("I 2000 499", "P 1999", "P 1", f"K {key}", f"C {self.second}", "T")

    def for_hire(self):
        for _ in range(self.draw.randrange(4)):
            self.any_of(
                lambda: self.way(self.draw.randrange(200), self.draw.randrange(1, 900)),
                lambda: self.key(self.draw.choice(["P 1", "P 2", "Z 1", "Z 2", "P 7", "Z 0", "S", "E 1"])), self.clock,
                self.loss, self.long_way,
            )

    def trip(self):
        for _ in range(self.draw.randrange(1, 5)):
            self.any_of(
                lambda: self.way(self.draw.randrange(40), self.draw.randrange(1, 2000)),
                lambda: self.way(self.draw.randrange(40), self.draw.randrange(1, 2000)),
                lambda: self.key(self.draw.choice(["E 1", "E 2", "E 1", "P 2", "Z 2", "P 1", "S", "H"])), self.clock,
                self.loss,
            )

    def hiring(self):
        self.for_hire()
        if self.happens(0.4):
            self.clock()
        self.key("H")
        self.trip()
        if self.may_expire and self.happens(0.15):
            if self.happens(0.5):
                self.put("K S")
            self.put(*[f"I {self.draw.randrange(20)} {MOST}"] * (LONGEST // MOST + 1))
        self.key("S")
        if self.happens(0.6):
            self.clock()
        if self.happens(0.3):
            self.any_of(self.loss, lambda: self.key(self.draw.choice(["E 1", "H"])))
        self.key("C")


def drive_of(draw, hold, may_expire):
    """A drive of some hirings, as bytes."""
    drive = Drive(draw, hold, may_expire)
    if drive.happens(0.2):
        drive.put("# the meter is off", "T", "")
    drive.put(f"U {drive.second}")
    for _ in range(draw.randrange(2, 8)):
        drive.hiring()
    drive.for_hire()
    if drive.happens(0.3):  # a trip that the end of the drive holds
        drive.key("H")
        drive.way(11, 99)
    if drive.happens(0.5):
        drive.put("D")
    end = "\r\n" if drive.happens(0.1) else "\n"
    return "".join(line + end for line in drive.lines).encode()
