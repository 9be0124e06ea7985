#!/usr/bin/env python3
"""A second model of the board's 82C54: three counters, counter 2 behind OUT1.

Made from the specification ("Conversions, edges and requests") and the 82C54
data sheet at the end of the manual.

    python3 timer.py < cases > expected

Operations of a line, digits in hex:
    cHH     control word              wNHH    byte written to counter N
    rN      counter N read            kN      one CLK pulse at counter N
    xNHHHH  HHHH CLK pulses           gAB     gate 0 becomes A, gates 1 and 2 B
    o       OUT0 OUT1 OUT2            f       are these a working board's?
Results: a refusal's number, a byte in two hex capitals, three of H and L, fit
or unfit, each after a space.
"""
import script
from counter import NOT_MODELLED, Counter


class Timer:
    """The three counters with counter 2 behind OUT1."""

    def __init__(self):
        self.counters = [Counter() for _ in range(3)]
        self.falls = [0, 0, 0]      # how often each OUT fell so far

    def fit(self):
        return all(counter.fit() for counter in self.counters)

    def outs(self):
        return [counter.out for counter in self.counters]

    def fell(self, number, times):
        self.falls[number] += times
        if number == 1:
            self.clock(2, times)

    def clock(self, number, pulses):
        self.fell(number, self.counters[number].clock(pulses))

    def set_gates(self, gate_0, gate_12):
        for counter, level in zip(self.counters, (gate_0, gate_12, gate_12)):
            counter.set_gate(level)

    def read(self, number):
        return self.counters[number].read()

    def write(self, number, byte):
        counter = self.counters[number]
        before = counter.out
        refusal = counter.write(byte)
        self.fell(number, before and not counter.out)
        return refusal

    def control(self, word):
        """A byte for the control word register; the refusal, or None."""
        number, byte_format, mode = word >> 6, word >> 4 & 3, word >> 1 & 7
        if number == 3:                     # read-back
            return NOT_MODELLED
        counter = self.counters[number]
        if byte_format == 0:                # counter latch command
            counter.latch()
            return None
        if word & 1 or mode not in (0, 2, 6):
            return NOT_MODELLED
        before = counter.out
        counter.program(mode & 2, byte_format)
        self.fell(number, before and not counter.out)
        return None


class TimerScript:
    """The operations of the script language over a fresh timer."""

    SHAPES = {"c": (2,), "w": (1, 2), "r": (1,), "k": (1,), "x": (1, 4),
              "g": (1, 1), "o": (), "f": ()}

    def __init__(self):
        self.timer = Timer()

    def do_c(self, word):
        return refused(self.timer.control(word))

    def do_w(self, number, byte):
        return refused(self.timer.write(number, byte))

    def do_r(self, number):
        return " %02X" % self.timer.read(number)

    def do_k(self, number):
        self.timer.clock(number, 1)

    def do_x(self, number, pulses):
        self.timer.clock(number, pulses)

    def do_g(self, gate_0, gate_12):
        self.timer.set_gates(gate_0 == 1, gate_12 == 1)

    def do_o(self):
        return " " + "".join("H" if out else "L" for out in self.timer.outs())

    def do_f(self):
        return " fit" if self.timer.fit() else " unfit"


def refused(refusal):
    return "" if refusal is None else " %d" % refusal


if __name__ == "__main__":
    script.run(TimerScript.SHAPES, TimerScript)
