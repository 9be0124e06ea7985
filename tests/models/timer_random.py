#!/usr/bin/env python3
"""Random lines for the timer: python3 timer_random.py SEED LINES

Counts are short, so that terminal counts, reloads and falling OUTs happen; all
operations occur, refused ones too.
"""
from random_lines import print_lines


def byte(dice):
    """Mostly 0 to 4, now and then any byte."""
    return dice.randrange(5) if dice.random() < 0.85 else dice.randrange(256)


def control_word(dice):
    """Mostly a control word that is taken, for any counter."""
    kind = dice.random()
    if kind < 0.15:
        return dice.randrange(256)
    counter = dice.randrange(3) << 6
    if kind < 0.45:
        return counter | dice.randrange(16)             # counter latch command
    byte_format = dice.choice((1, 1, 1, 2, 3, 3)) << 4
    return counter | byte_format | dice.choice((0, 4, 4, 12))


def operation(dice):
    counter = dice.choice((0, 1, 1, 2))
    kind = dice.random()
    if kind < 0.14:
        return "c%02X" % control_word(dice)
    if kind < 0.34:
        return "w%d%02X" % (counter, byte(dice))
    if kind < 0.50:
        return "r%d" % counter
    if kind < 0.72:
        return "k%d" % counter
    if kind < 0.77:
        return "x%d%04X" % (counter, pulses(dice))
    if kind < 0.87:
        return "g%d%d" % (dice.randrange(2), dice.randrange(2))
    return "o" if kind < 0.98 else "f"


def pulses(dice):
    kind = dice.random()
    if kind < 0.7:
        return dice.randrange(12)
    return dice.randrange(0x300) if kind < 0.9 else dice.randrange(0xFF00, 0x10000)


def programmed(dice):
    """A start that lets things happen: a counter programmed with a count."""
    counter = dice.randrange(3)
    word = counter << 6 | 0x10 | dice.choice((0, 4))
    return "c%02X w%d%02X" % (word, counter, dice.randrange(2, 5))


def line(dice):
    start = [programmed(dice) for _ in range(dice.randrange(4))]
    rest = [operation(dice) for _ in range(dice.randrange(10, 40))]
    return " ".join(start + rest + ["o f r0 r1 r2"])


if __name__ == "__main__":
    print_lines(line)
