"""Random lines for a case program, as every *_random.py prints them: SEED LINES on the command line."""
import random
import sys


def print_lines(line):
    """Prints LINES lines, each by `line` from one stream of dice that the seed begins."""
    seed, lines = int(sys.argv[1]), int(sys.argv[2])
    dice = random.Random(seed)
    for number in range(1, lines + 1):
        print("random %d %d: %s" % (seed, number, line(dice)))
