"""The line shape that the scripts of the timer and of the board share.

A line is a name (any bytes but ':'), ':' and operations.  An operation is a
letter and hex digits, capitals; spaces between operations are skipped.  Each of
its numbers has a fixed number of digits, but that the first may be of any width.
The answer to a line is the name and ':' as they are, then the result of each
operation, then LF.
"""
import re
import sys

ANY = 0         # the width of a first number that takes the digits which the others leave
OPERATION = re.compile("([a-z])([0-9A-F]*) *")


def numbers_of(digits, widths):
    """The numbers that an operation's digits are."""
    left = len(digits) - sum(widths)
    if left and (not widths or widths[0] != ANY):
        raise ValueError("digits " + digits)
    for width in widths:
        width = width or left
        yield int(digits[:width], 16)
        digits = digits[width:]


def operations(text, shapes):
    """The operations of a line.

    `shapes` gives for each letter how many digits each of its numbers has.
    """
    place = 0
    text = text.lstrip(" ")
    while place < len(text):
        operation = OPERATION.match(text, place)
        letter, digits = operation.groups()
        yield letter, list(numbers_of(digits, shapes[letter]))
        place = operation.end()


def answer(line, shapes, make):
    """The answer to one line; `make` gives a fresh device.

    The device answers operation `c` with numbers `n` by its method `do_c(*n)`,
    which gives the text to print, or None where nothing is printed.
    """
    name, _, text = line.partition(":")
    device = make()
    results = [getattr(device, "do_" + letter)(*numbers) or ""
               for letter, numbers in operations(text, shapes)]
    return name + ":" + "".join(results)


def run(shapes, make):
    """Answers every line of standard input on standard output."""
    lines = sys.stdin.buffer.read().decode("latin-1").split("\n")
    if lines[-1] == "":
        lines.pop()
    for line in lines:
        out = answer(line, shapes, make) + "\n"
        sys.stdout.buffer.write(out.encode("latin-1"))
    sys.stdout.flush()
