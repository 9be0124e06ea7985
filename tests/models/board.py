#!/usr/bin/env python3
"""A second model of the board, run by a script of events.

    python3 board.py < cases > expected

Each line starts with a fresh board: jumpers A, mid-scale, fresh stores.
Operations, digits in hex; OO and O may have more digits than shown, w 8 in all:
    wOOHH   byte write, offset OO           rOO   byte read
    xOO     word read                       eHHHH conversion end, the code's 16 bits
    dOO     DIN pins                        lO    Latch level: 0 low, any other number high
    pNHH    pins of port N (0 A, 1 B, 2 C)  tHHHH so many ticks
    f       calibration transfer end
    bNZ     start again with a fresh board: jumpers N (0 A to 3 D), Z=1 zero scale
    nHHHH   so many times: 0 written to offset 0, then a conversion end whose code
            counts from 0 since the fresh board
    mOOHH   the host sets EEPROM place OO
    hOOOOHHHH  the host sets sample memory place OOOO
    zNN     spoils the board: the table stands in spoils.py
    y       outputs / DOUT pins 2, 1, 0 / driven lines and levels of A, B, C / TrimDAC
    q       samples held, and the oldest and the newest, read round the circle; the number
            held alone where none is, where more are than there are places, and where
            the place of the oldest is not below their number
    k       the tally, and whether it adds up with the board where it began and as it stands
    o       begins a tally anew with the board as it stands, as a fresh board does
Results: nothing for done, a byte in two and a word in four hex capitals, empty for a
word read that finds nothing, ! and the number for a refusal, each after a space.  Of t
and n each event has its result.
"""
import script
from device import NOTHING, Board, Refused
from registers import OUT0EN, OUT2EN
from script import ANY
from spoils import SPOILS

SHAPES = {"w": (ANY, 2), "r": (ANY,), "x": (ANY,), "e": (4,), "d": (ANY,), "l": (ANY,),
          "p": (1, 2), "t": (4,), "f": (), "b": (1, 1), "n": (4,), "y": (),
          "q": (), "k": (), "o": (), "m": (2, 2), "h": (4, 4), "z": (2,)}


class BoardScript:
    def __init__(self):
        self.start(0, False)

    def start(self, jumpers, zero_scale):
        self.board = Board(jumpers, zero_scale)
        self.code = 0

    def answer(self, shape, event, *numbers):
        """The printed answer to an event; `shape` is that of a number."""
        try:
            answer = self.board.event(event, *numbers)
        except Refused as refused:
            return " !%d" % refused.args
        if not shape:
            return ""
        return " empty" if answer is NOTHING else shape % answer

    # Events

    def do_w(self, offset, value):
        return self.answer("", "write", offset, value)

    def do_r(self, offset):
        return self.answer(" %02X", "read", offset)

    def do_x(self, offset):
        return self.answer(" %04X", "word_read", offset)

    def do_e(self, code):
        return self.answer("", "conversion_end", code)

    def do_d(self, pins):
        return self.answer("", "din_pins", pins)

    def do_l(self, level):
        return self.answer("", "latch_level", level)

    def do_p(self, port, levels):
        return self.answer("", "port_pins", port, levels)

    def do_f(self):
        return self.answer("", "transfer_end")

    def do_t(self, number):
        """All ticks at once; a board that refuses one refuses each."""
        return number and self.answer("", "ticks", number) * number

    def do_n(self, times):
        results = []
        for _ in range(times):
            results.append(self.do_w(0, 0) + self.do_e(self.code))
            self.code = (self.code + 1) & 0xFFFF
        return "".join(results)

    # What the host does besides

    def do_b(self, jumpers, zero_scale):
        self.start(jumpers, zero_scale == 1)

    def do_m(self, place, value):
        self.board.calibration.eeprom[place] = value

    def do_h(self, place, value):
        self.board.samples.places[place] = value

    def do_z(self, number):
        SPOILS[number](self.board)

    def do_y(self):
        board = self.board
        outputs = ",".join("%03X" % code for code in board.outputs.codes)
        levels = ",".join("%02X.%02X" % (board.ports.driven(port), board.ports.levels(port))
                          for port in range(3))
        trimdac = "".join("%02X" % value for value in board.calibration.trimdac)
        return " " + "/".join((outputs, dout_pins(board), levels, trimdac))

    def do_q(self):
        memory = self.board.samples
        ends = memory.ends()
        return " %d" % memory.held + (":%04X-%04X" % ends if ends else "")

    def do_k(self):
        return " " + self.board.tally.text(self.board)

    def do_o(self):
        self.board.tally.begin_on(self.board)


def dout_pins(board):
    """OUT2 / DOUT2, DOUT1 and OUT0 / DOUT0 (manual chapter 16.5)."""
    out = board.timer.outs()
    pins = [bool(board.dout & 4), bool(board.dout & 2), bool(board.dout & 1)]
    if board.configuration & OUT2EN:
        pins[0] = out[2]
    if board.configuration & OUT0EN:
        pins[2] = out[0]
    return "".join("H" if pin else "L" for pin in pins)


if __name__ == "__main__":
    script.run(SHAPES, BoardScript)
