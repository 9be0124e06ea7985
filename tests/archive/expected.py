#!/usr/bin/env python3
"""Prints what the collector must hand over in each script of a worlds file (its top explains the language).

The lines have two sources. A ledger writes down every conversion begun, with the channel selected then, the code it
ended with and whether it was kept; the n-th sample after a start is the n-th conversion begun since, and that is what
is printed. A small board and the collector's phases work out the same from a memory of bare codes and the collector's
own count of channels. Where the two differ, or a script leaves the premises of condition 3, the run ends at that line.
So it does where the collector is told nothing at a word read, which the board rules exclude for it alone on the bus (M-100).
"""
import sys

from board import Board, MEMORY, NOTHING
from ledger import Ledger, Where, must

JUMPER_CHANNELS = [set(range(32)), set(range(16)), set(range(16)) | set(range(24, 32)), set(range(24))]


class Collector:
    """Phases 0 to 6 are the start, 1 of them the poll; then look, take, drain; stuck."""

    def __init__(self, low, high, _jumpers, range_code, clock, limit):
        self.low, self.high, self.limit = low, high, limit
        self.writes = {0: (9, 0), 2: (11, range_code), 3: (7, 2), 4: (2, low), 5: (3, high), 6: (9, 3 if clock else 2)}
        self.restart()

    def restart(self):
        self.phase, self.polls, self.next, self.left = 0, 0, self.low, 0

    def turn(self, board, ledger):
        """Makes the access of this phase, takes the answer, gives the line to print or None."""
        if self.phase in self.writes:
            board.write(*self.writes[self.phase])
            if self.phase == 6:
                ledger.start_ends()
            self.phase = "look" if self.phase == 6 else self.phase + 1
        elif self.phase == 1:
            board.read(8)
            self.polls += 1
            self.phase = 2 if board.answer < 0x80 else "stuck" if self.polls == self.limit else 1
        elif self.phase == "look":
            must(board.memory == ledger.waiting(), "the memory is not what was kept since the start")
            board.read(7)
            self.left, board.ends = MEMORY, 0
            self.phase = "look" if board.answer & 0x80 else "drain" if board.answer & 0x20 else "take"
        elif self.phase != "stuck":
            board.word_read()
            must(board.answer is not NOTHING, "nothing where a sample is due: refusal 20")
            line = ledger.hand(self.next, board.answer)
            self.next = self.low if self.next == self.high else self.next + 1
            self.left -= 1
            if self.phase == "take":
                must(board.ends <= 1, "two ends between a look and the word read after it")
                self.phase = "look"
            elif self.left == 0:
                line += " gap %d" % self.polls
                self.restart()
            return line
        return "stuck" if self.phase == "stuck" else None


class Script:
    def __init__(self, jumpers, _zero_scale):
        self.ledger, self.collector, self.alone, self.samples, self.refused = Ledger(), None, False, 0, 0
        self.board = board = Board(jumpers, self.ledger)
        self.acts = {"W": board.write, "R": board.read, "X": board.word_read, "C": board.conversion_end, "D": board.din,
                     "T": board.tick, "E": board.transfer_end, "L": lambda level: 0, "P": lambda port, pins: 0}

    def start(self, low, high, jumpers, range_code, clock, limit):
        unfit = [(14, not 1 <= limit <= 1000), (11, low > high or high > 31),
                 (12, not set(range(low, high + 1)) <= JUMPER_CHANNELS[jumpers]),
                 (13, 4 <= range_code <= 7 or range_code > 15)]
        refusals = [number for number, holds in unfit if holds]
        if refusals:
            print("refused %d" % refusals[0])
        else:
            self.collector, self.alone = Collector(low, high, jumpers, range_code, clock, limit), True

    def event(self, letter, *numbers):
        if letter in "BSI":
            code, turns = numbers[-1], 0 if letter == "B" else numbers[-2]
            before, after = ([("T",)] * numbers[0], []) if letter == "I" else ([("D", 7)], [("D", 15)])
            for part in before + [("C", code)] + after + [("t",)] * turns:
                self.event(*part)
        elif letter == "t":
            must(self.alone or not self.collector or self.collector.phase == "stuck", "the collector is not alone")
            line = self.collector and self.collector.turn(self.board, self.ledger)
            self.samples += line not in (None, "stuck")
            print(line or "", end="\n" if line else "")
        elif letter == "V":
            print("view %d %d" % (self.board.view(8), self.board.view(7)))
        else:
            self.alone = self.alone and letter not in "WRX"
            self.refused += self.acts[letter](*numbers) != 0

    def end(self):
        print("polls %d samples %d refused %d" % (getattr(self.collector, "polls", 0), self.samples, self.refused))


def main(path):
    for Where.line, line in enumerate(open(path), 1):
        if line.startswith("#"):
            print(line if line.startswith("# name: ") else "", end="")
            continue
        words = line.split()
        count = int(words.pop(0)[:-1]) if line[0].isdigit() else 1
        letter, numbers = words[0], [int(word) for word in words[1:]]
        if letter == "fresh":
            script = Script(*numbers)
        elif letter in ("start", "end"):
            getattr(script, letter)(*numbers)
        else:
            for _ in range(count):
                script.event(letter, *numbers)
                if letter in "BSI":
                    numbers[-1] = (numbers[-1] + 32769) % 65536 - 32768

if __name__ == "__main__":
    main(sys.argv[1])
