#!/usr/bin/env python3
"""A second text of the session, over the board of tests/models.

    python3 model.py < lines > expected

Made from the specification, "The session program", and request M-100: each line is matched whole by a pattern.
"""
import os
import re
import sys

sys.path.insert(0, os.path.join(os.path.dirname(os.path.abspath(__file__)), "..", "models"))
from device import NOTHING, Board, Refused  # noqa: E402

DECIMAL = b"(0|[1-9][0-9]*)"
WRITE = re.compile(b"W " + DECIMAL + b" ([0-9A-Fa-f][0-9A-Fa-f])")
READ = re.compile(b"R " + DECIMAL)
CODE = re.compile(b"C (-?)" + DECIMAL)


def command(line):
    """The shape of the answer, and the event with its numbers; None for a bad line."""
    if len(line) > 20:
        return None             # longer than any command
    found = WRITE.fullmatch(line)
    if found and int(found[1]) <= 99:
        return "ok", "write", int(found[1]), int(found[2], 16)
    found = READ.fullmatch(line)
    if found and int(found[1]) <= 99:
        return "%02X", "read", int(found[1])
    if line == b"X":
        return "%04X", "word_read", 0
    found = CODE.fullmatch(line)
    if found:
        code = -int(found[2]) if found[1] else int(found[2])
        if -32768 <= code <= 32767:
            return "ok", "conversion_end", code & 0xFFFF
    return None


class Session:
    def __init__(self):
        self.board = Board(0, False)
        self.number = 0

    def answer(self, line):
        self.number += 1
        wanted = command(line)
        if wanted is None:
            return "%d bad\n" % self.number
        shape, event, *numbers = wanted
        before = self.board.requests
        try:
            value = self.board.event(event, *numbers)
            text = "empty" if value is NOTHING else shape if shape == "ok" else shape % value
        except Refused as refused:
            text = "refused %d" % refused.args
        raised = not before and self.board.requests
        return "%d %s%s\n" % (self.number, text, " irq" if raised else "")


def answers(text):
    """What is printed for a text."""
    lines = text.split(b"\n")
    if not lines[-1]:
        lines.pop()
    session = Session()
    return "".join(session.answer(line) for line in lines).encode()


if __name__ == "__main__":
    sys.stdout.buffer.write(answers(sys.stdin.buffer.read()))
