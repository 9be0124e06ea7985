#!/usr/bin/env python3
"""Random lines for the collector: python3 collector_random.py SEED LINES

Most settings are taken and most answers lead on, so that starts end, samples
come and drains run to their gap; all operations occur, refused ones too.
"""
from random_lines import print_lines

STATUS = (0x00, 0x00, 0x00, 0x40, 0x80, 0x88, 0x60, 0x70, 0x20, 0x10, 0xC0, 0xA0, 0x100, 0x180)


def settings(dice):
    low = dice.randrange(32)
    high = min(31, low + dice.randrange(6)) if dice.random() < 0.9 else dice.randrange(40)
    jumpers = dice.choice((0, 0, 0, 0, 0, 0, 1, 2, 3, dice.randrange(8)))
    code = dice.choice((0, 1, 2, 3, 8, 15, 10, dice.randrange(20)))
    limit = dice.choice((1, 2, 3, 4, 1000, dice.randrange(1, 1100)))
    return "l%02X%02X j%02X g%02X k%02X m%04X" % (low, high, jumpers, code, dice.choice((0, 0, 1, 2, 0x100, 0xFF00)), limit)


def answer(dice):
    """A number, or nothing."""
    kind = dice.random()
    if kind < 0.12:
        return "e"
    if kind < 0.76:
        return "a%04X" % dice.choice(STATUS)
    return "a%04X" % dice.choice((0xFFFF, dice.randrange(0x10000), dice.randrange(0x10000), dice.randrange(0x100)))


def poke(dice):
    return dice.choice(("p%02X" % dice.randrange(13), "c%02X" % dice.randrange(33), "o%04X" % dice.randrange(5),
                        "d%04X" % dice.choice((0, 1, 2, 512, 513, dice.randrange(520))), "i"))


def scan(dice):
    low = dice.randrange(34)
    return "z%02X%02X%04X" % (low, dice.randrange(max(low - 1, 0), 34), dice.randrange(1025))


def operation(dice):
    kind = dice.random()
    if kind < 0.60:
        return answer(dice)
    if kind < 0.75:
        return "q"
    if kind < 0.80:
        return "n%04X%04X" % (dice.choice((2, 7, 100, 511, 512, 513)), dice.choice(STATUS))
    if kind < 0.86:
        return dice.choice("hf")
    if kind < 0.875:
        return poke(dice)
    if kind < 0.90:
        return settings(dice) + " s"
    return "s" if kind < 0.95 else scan(dice)


def line(dice):
    start = [settings(dice), "s", "a0000 a0000 a0000 a0000 a0000 a0000 a0000"]
    rest = [operation(dice) for _ in range(dice.randrange(10, 40))]
    return " ".join(start[:dice.choice((0, 2, 3, 3, 3, 3, 3))] + rest + ["q h f"])


if __name__ == "__main__":
    print_lines(line)
