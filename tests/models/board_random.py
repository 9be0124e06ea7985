#!/usr/bin/env python3
"""Random lines for the board: python3 board_random.py SEED LINES

Counts are short, ranges small, and page, key and ticks are chosen so that deep
states come up: scans, overflows, cascades, transfers, busy outputs, samples round
the end of their memory.  The tally is shown and begun anew between them, and after
overflows and resets in mid-scan.  A few lines end with a spoil of the list below; after
it only single events follow.  A few others poke places of the sample memory at their
end, held and free.
"""
import timer_random
from random_lines import print_lines

SPOILS = tuple(range(0x00, 0x4C)) + (0x4A, 0x4B) * 3
CHANNELS = (0, 1, 2, 3, 3, 4, 5, 30, 31)
TICKS = (1, 1, 1, 2, 2, 3, 4, 5, 8, 99, 100, 101, 999, 1000, 1001)
OPERATIONS_9 = (0x00, 0x80, 0xE0, 0xE0, 0xE2, 0xE3, 0xA3, 0x02, 0x03, 0x23, 0x01)
CONFIGURATIONS = (0x00, 0x00, 0x30, 0x31, 0x34, 0x35, 0x02, 0x06, 0x37, 0x01, 0x05,
                  0x40, 0x80, 0xC0, 0xC5)
CONTROLS_8255 = (0x80, 0x81, 0x83, 0x88, 0x8A, 0x8B, 0x90, 0x92, 0x99, 0x9B)
COMMANDS = (0x80, 0x80, 0xC0, 0xC0, 0x20, 0x08, 0x08, 0x10, 0x30, 0x18, 0x00, 0xA8, 0x88)
HIDDEN = (0x0E, 0x0F, 0x1B, 0x1D, 0x1E, 0x1F, 0x20, 0x32, 0x39, 0x40)   # spoils that may move an OUT
FAR = ("r10", "w1000", "x01", "x10", "rFF", "r100", "r10F", "x100", "x10000", "w10000",
       "w1000820", "rFFFFFFFF")
WIDE_DIN = (0x10, 0x18, 0xF7, 0x100, 0x107, 0x10F, 0x1000F, 0xFFFFFFFF)
PLACES = (0, 1, 2, 3, 4, 8, 20, 0x1FD, 0x1FE, 0x1FF)     # at and beside the memory's ends
HIGH = (1, 1, 1, 2, 0x10, 0x100, 0x10000)               # Latch levels that are high
CLEARS = ("w0702", "w070E", "w0820", "w0810", "w0830", "w0828", "w081B")    # and INTRST with them


class Line:
    """One line; remembers page, DIN and Latch as far as the choice needs them."""

    def __init__(self, dice):
        self.dice = dice
        self.page = 0
        self.din = 15
        self.latch = 0

    def often(self, chance):
        return self.dice.random() < chance

    def byte(self):
        return self.dice.randrange(256)

    def write(self, offset, value):
        return "w%02X%02X" % (offset, value)

    # Kinds of operations

    def analog_input(self):
        kind = self.dice.randrange(8)
        if kind == 0:
            return self.write(2, self.dice.choice(CHANNELS))
        if kind == 1:
            return self.write(3, self.dice.choice(CHANNELS))
        if kind == 2:
            return self.write(7, self.dice.choice((0, 4, 4, 8, 12, 12, 2, 6, 0x0E)))
        if kind == 3:
            return self.write(6, self.dice.choice((0, 1, 1, 2, 3, 128, 255)))
        return self.conversion()

    def conversion(self):
        start = self.write(0, self.byte())
        end = "e%04X" % self.dice.choice((self.dice.randrange(1 << 16), 0, 0xFFFF))
        return self.dice.choice((start, end, start + " " + end, start + " " + end))

    def sample(self):
        return self.dice.choice(("x00", "x00", "r00", "r01", "q", "r07", "r08", "k"))

    def tally(self):
        """Shown, begun anew, or shown round what it keeps apart."""
        kind = self.dice.randrange(12)
        if kind < 8:
            return "k" if kind < 6 else "o k"
        clear = self.dice.choice(CLEARS)
        if clear[2] == "8":
            self.page = 0
        if kind == 8:
            more = " ".join(self.dice.choices(("w0000 e0001", "x00", "r01", "o"), k=2))
            return "w0900 n%04X k %s k %s k" % (self.dice.randrange(0x1FE, 0x204), more, clear)
        scan = "w02%02X w03%02X w0704" % (self.dice.choice(CHANNELS), self.dice.choice(CHANNELS))
        ends = " e0003" * self.dice.randrange(4)
        return "w0900 %s w0000%s k %s%s k e0004 k" % (scan, ends, "o " * self.often(0.3), clear)

    def control(self):
        """Registers 1, 9, 10 and 11."""
        kind = self.dice.randrange(10)
        if kind < 4:
            return self.write(9, self.some(OPERATIONS_9))
        if kind < 8:
            return self.write(10, self.some(CONFIGURATIONS))
        return self.write(1 if kind == 8 else 11, self.byte())

    def some(self, choices):
        return self.dice.choice(choices) if self.often(0.9) else self.byte()

    def turn_page(self):
        if self.often(0.12):
            value = self.dice.choice((0x20, 0x10, 0x30, 0x28, 0x13, 0x2B))
            self.page = 0
        elif self.often(0.15):
            value = 8 | self.dice.randrange(4)
        else:
            value = self.page = self.dice.choice((0, 0, 0, 1, 3, 3, 2))
        key = self.page == 3 and self.often(0.6)
        return self.write(8, value) + (" w0FA5" if key else "")

    def paged(self):
        """A read or write of 12 to 15 that makes sense on the page."""
        if self.page == 0:
            return self.timer()
        place = self.dice.randrange(12, 16)
        if self.often(0.35):
            return "r%02X" % place
        if self.page == 1 and place == 15:
            return self.write(15, self.some(CONTROLS_8255))
        return self.calibration(place) if self.page == 3 else self.write(place, self.byte())

    def timer(self):
        counter = self.dice.choice((0, 1, 1, 2))
        if self.often(0.25):
            return self.write(15, timer_random.control_word(self.dice))
        if self.often(0.2):
            word = counter << 6 | self.dice.choice((0x10, 0x14, 0x30, 0x34))
            return self.write(15, word) + " " + self.write(12 + counter, self.dice.randrange(4))
        if self.often(0.5):
            return self.write(12 + counter, timer_random.byte(self.dice))
        return "r%02X" % (12 + counter)

    def calibration(self, place):
        if place == 15 or self.often(0.2):
            return self.write(15, self.dice.choice((0xA5, 0xA5, 0xA5, 0x00)))
        if place == 14:
            command = self.write(14, self.some(COMMANDS))
            return command + " f" if self.often(0.4) else command
        return self.write(place, self.dice.choice((self.byte(), self.dice.randrange(9))))

    def ticks(self):
        if self.often(0.95):
            return "t%04X" % self.dice.choice(TICKS)
        return "t%04X" % self.dice.randrange(0x3000)

    def pins(self):
        kind = self.dice.randrange(8)
        if kind < 5:
            self.din ^= self.dice.choice((1, 1, 2, 4, 8, 8, 3, 5, 9, 12, 15))
            return "d%02X" % self.din
        if kind == 5:
            self.latch ^= self.often(0.8)
            return "l%X" % (self.dice.choice(HIGH) if self.latch else 0)
        if kind == 6:
            return "p%d%02X" % (self.dice.randrange(3), self.byte())
        return "d%02X" % (self.dice.choice(WIDE_DIN) if self.often(0.1) else self.din)

    def analog_output(self):
        if self.often(0.3):
            return self.write(4, self.byte())
        if self.often(0.4):
            return self.write(5, self.byte()) + (" t0064" if self.often(0.5) else "")
        return self.dice.choice(("r05", "r05", "r04", "y"))

    def read(self):
        if self.often(0.03):
            return self.dice.choice(FAR)
        return "r%02X" % self.dice.randrange(16)

    def host(self):
        kind = self.dice.randrange(4)
        if kind < 2:
            return "m%02X%02X" % (self.dice.randrange(9), self.byte())
        if kind == 2:
            return "h%04X0000" % self.dice.choice((0, 1, 2, 511))
        return self.dice.choice(("f", "f", "y", "q"))

    KINDS = ((analog_input, 20), (sample, 10), (control, 8), (turn_page, 5), (paged, 22),
             (ticks, 12), (pins, 10), (analog_output, 5), (read, 6), (host, 3), (tally, 4))

    def operation(self):
        methods = [method for method, _ in self.KINDS]
        weights = [weight for _, weight in self.KINDS]
        return self.dice.choices(methods, weights)[0](self)

    def circle(self):
        """Samples in the middle or round the end: a memory filled, drained in part, refilled."""
        filled = self.dice.choice((6, 40, 0x200, 0x200, 0x200))
        read = self.dice.choice((1, 2, 3, 4, 7, 20, 300, 509, 510, 511, 512))
        read = min(read, filled - (filled < 0x200))
        refilled = self.dice.choice((0, 0, 1, 1, 2, 3, 5, 300, read - 1, read, read + 1))
        refilled = min(refilled, 0x200 - filled + read + 1)
        parts = ["n%04X" % filled] + self.dice.choices(("x00", "r01"), (9, 1), k=read)
        parts += ["n%04X" % refilled, "q"]
        if self.often(0.4):
            beside = ((filled + refilled) % 512, read - 1)  # behind the newest, before the oldest
            parts.append(self.pokes(beside * 3 + PLACES))
        return " ".join(parts)

    def pokes(self, places):
        """Some of the places or any other, poked and put back to 0."""
        parts = []
        for _ in range(self.dice.randrange(1, 4)):
            place = self.dice.choice(places + (self.dice.randrange(512),))
            parts.append("h%04X%04X r07 q" % (place, self.dice.choice((1, 0x100, 0x8000, 0xFFFF))))
            parts += self.dice.choices(("x00", "w0000", "e0005", "t0001"), k=2)
            parts.append("h%04X0000 r07" % place)
        return " ".join(parts + ["x00 w0000 e0006 q"])

    # The line as a whole

    def start(self):
        """Another board, samples, or counters already programmed."""
        parts = []
        if self.often(0.3):
            parts.append("b%d%d" % (self.dice.randrange(4), self.dice.randrange(2)))
        if self.often(0.3):
            parts.append("n%04X" % self.dice.choice((1, 2, 3, 0xFE, 0xFF, 0x1FE, 0x1FF, 0x200)))
        elif self.often(0.15):
            parts.append(self.circle())
        if self.often(0.5):
            parts.append("w0F54 w0D02 w0F%02X w0E02" % self.dice.choice((0x94, 0x90)))
        if self.often(0.5):
            parts.append(timer_start(self.dice))
        return parts

    def end(self):
        parts = ["r04 r07 r08 r09 q y k"]
        if self.often(0.1):
            spoil = self.dice.choice(SPOILS)
            parts.append("z%02X" % spoil)
            single = ("w0000", "r07", "x00", "e0001", "d07", "l1", "p0FF", "t0001", "f",
                      "w0820", "w1000", "d10", "r107", "w10820", "d107", "l2", "w0702")
            parts += ["o"] * self.often(0.2) + self.dice.choices(single, k=5) + ["q"]
            parts += ["y"] * (spoil not in HIDDEN) + ["k o w0702 e0001 k"]
        elif self.often(0.03):
            parts.append("h01FF0001 r07 x00 w0000 q")
        elif self.often(0.08):
            parts.append(self.pokes(PLACES))
        return parts

    def text(self):
        middle = [self.operation() for _ in range(self.dice.randrange(15, 60))]
        return " ".join(self.start() + middle + self.end())


def timer_start(dice):
    return "w0F%02X w0C%02X" % (dice.choice((0x10, 0x14)), dice.randrange(2, 5))


if __name__ == "__main__":
    print_lines(lambda dice: Line(dice).text())
