#!/usr/bin/env python3
"""A second model of the collector and of whole scans.

Made from the specification ("The collector", "Refusal numbers"), the manual
(chapters 5.4 and 9.2, registers 7 and 8) and the readings of docs/DECISIONS.md
alone, without sight of the collector's code or definitions; what a look leads
to was changed since to the words of request M-108, and that with the code known.
What the collector does when it is told nothing was added from request M-100 and
the readings of it alone, without sight of its code or definitions.
What the code may count is read off something kept here: polls are the reads of 8 in a history of
accesses, the next channel follows from the samples handed over, reads left are
a queue of reads to make, and whole scans are found by trying the longest part
first.  The papers leave three things open, which a case can show: the numbers
of the phases (here the order of the accesses, then stuck), the polls reported
with refusal 1 (those of the record) and the reads left outside a drain (none
after a start, otherwise as they stand).

    python3 collector.py < cases > expected

The operations of a line and the shape of their results are those of the case
program, crates/cases_collector: a brings a number, e brings nothing.
"""
from collections import deque, namedtuple
from functools import lru_cache, partialmethod

import script

SHAPES = {"l": (2, 2), "j": (2,), "g": (2,), "k": (script.ANY,), "m": (4,), "s": (), "i": (), "p": (2,), "c": (2,), "o": (4,), "d": (4,),
          "q": (), "a": (4,), "e": (), "n": (4, 4), "h": (), "f": (), "z": (2, 2, 4)}

# The channels of jumpers A to D (chapter 5.4); other numbers have none (D14).
CHANNELS = ({*range(32)}, {*range(16)}, {*range(16)} | {*range(24, 32)}, {*range(24)})

# The codes of chapter 9.2's table that are not marked invalid.
RANGE_CODES = {0, 1, 2, 3, 8, 9, 10, 11, 12, 13, 14, 15}

STS = 0x80                                  # of a read of 8
EF, FF = 0x80, 0x20                         # of a read of 7
MEMORY = 512
NOTHING = None                              # brought in place of a number

FIRST, POLL, LOOK, WORD, DRAIN, STUCK = 0, 1, 7, 8, 9, 10

Settings = namedtuple("Settings", "low high jumpers code clock limit")


def bad_range(low, high):
    return low > high or high > 31


@lru_cache(maxsize=None)
def start_refusal(asked):
    """The first of 14, 11, 12, 13 that a start with these settings meets, or None."""
    if not 1 <= asked.limit <= 1000:
        return 14
    if bad_range(asked.low, asked.high):
        return 11
    there = CHANNELS[asked.jumpers] if asked.jumpers < len(CHANNELS) else set()
    if not there.issuperset(range(asked.low, asked.high + 1)):
        return 12
    return None if asked.code in RANGE_CODES else 13


@lru_cache(maxsize=None)
def accesses(given):
    """The access of each phase: the seven of a start, the look, the one word, a word of a drain."""
    clock = 3 if given.clock else 2
    return ("W9=0", "R8", "W11=%d" % given.code, "W7=2", "W2=%d" % given.low, "W3=%d" % given.high, "W9=%d" % clock, "R7", "X0", "X0")


def signed(word):
    return word - 0x10000 if word & 0x8000 else word


class Collector:
    def __init__(self, given):
        self.given = given
        self.begin()

    def begin(self):
        """As a start or a restart has it (D9).  The history has a mark for each answer taken since, 8 where offset 8 was read."""
        self.phase = FIRST
        self.history = bytearray()
        self.pending = deque()
        self.set_next(self.given.low)

    # The numbers of the record, and a host's own in their place.
    def set_phase(self, phase):
        self.phase = phase

    def polls(self):
        return self.history.count(b"8")

    def set_polls(self, polls):
        self.history = bytearray(b"8" * polls)

    def left(self):
        return len(self.pending)

    def set_left(self, left):
        self.pending = deque(["X0"] * left)

    def next(self):
        """The channel of the next sample: as many steps on, from low to high and round, as samples were handed over."""
        if not self.handed:
            return self.first
        low, width = self.given.low, self.given.high - self.given.low + 1
        return low + (self.first - low + self.handed) % width

    def set_next(self, channel):
        self.first = channel
        self.handed = 0

    def set_given(self, given):
        self.set_next(self.next())
        self.given = given

    def is_fit(self):
        given, polls = self.given, self.polls()
        if start_refusal(given) or self.phase > STUCK or not given.low <= self.next() <= given.high or polls > given.limit:
            return False
        if self.phase == FIRST:
            return polls == 0
        if self.phase == POLL:
            return polls < given.limit
        return self.phase != DRAIN or 1 <= self.left() <= MEMORY

    def access(self):
        if not self.is_fit():
            return "!1"
        return "!15" if self.phase == STUCK else accesses(self.given)[self.phase]

    def take(self, brought):
        """An answer, a number or nothing: what is handed over, and the polls reported with it, those of the start that a gap ends (D5)."""
        access = self.access()
        if access[0] == "!":
            return access, self.polls()
        if access[0] == "R" and (brought is NOTHING or brought > 255):
            return "!17", self.polls()
        if access[0] == "X" and brought is NOTHING:
            return "!20", self.polls()
        self.history += b"8" if access == "R8" else b"."
        polls = self.polls()
        if access == "R8":
            return self.polled(brought), polls
        if access == "R7":
            return self.looked(brought), polls
        return (self.word_read(brought) if access == "X0" else self.written()), polls

    def written(self):
        self.phase += 1
        return "run" if self.phase == LOOK else "-"

    def polled(self, status):
        if not status & STS:
            self.phase += 1
        elif self.polls() == self.given.limit:
            self.phase = STUCK
            return "!15"
        return "-"

    def looked(self, status):
        """By EF first, FF next, and nothing else (M-108)."""
        if status & EF:
            return "-"
        if status & FF:
            self.phase = DRAIN
            self.set_left(MEMORY)
        else:
            self.phase = WORD
        return "-"

    def word_read(self, word):
        shown = "%d=%d" % (self.next(), signed(word))
        self.handed += 1
        if self.phase == WORD:
            self.phase = LOOK
            return shown
        self.pending.popleft()
        if self.pending:
            return shown
        self.begin()
        return shown + "|"


def whole_scans(samples, low, high):
    """The longest part from the front that ends with a sample of the channel high, the first being of low."""
    channels = []
    for _ in samples:
        channels.append(low if not channels or channels[-1] == high else channels[-1] + 1)
    whole = (length for length in range(len(samples), 0, -1) if channels[length - 1] == high)
    return samples[:0 if bad_range(low, high) else next(whole, 0)]


class Bench:
    """Settings and a record, as a line finds them: channels 0 to 3, 3 polls; a record of zeros."""

    def __init__(self):
        self.settings = Settings(0, 3, 0, 0, 0, 3)
        self.collector = Collector(Settings(0, 0, 0, 0, 0, 0))

    def choose(self, name, number):
        self.settings = self.settings._replace(**{name: number})

    def do_l(self, low, high):
        self.choose("low", low)
        self.choose("high", high)

    do_j, do_g = partialmethod(choose, "jumpers"), partialmethod(choose, "code")
    do_k, do_m = partialmethod(choose, "clock"), partialmethod(choose, "limit")

    def put(self, name, number):
        getattr(self.collector, "set_" + name)(number)

    do_p, do_c = partialmethod(put, "phase"), partialmethod(put, "next")
    do_o, do_d = partialmethod(put, "polls"), partialmethod(put, "left")

    def do_i(self):
        self.collector.set_given(self.settings)

    def do_s(self):
        refusal = start_refusal(self.settings)
        if refusal:
            return " !%d" % refusal
        self.collector = Collector(self.settings)
        return " ok"

    def do_q(self):
        return " " + self.collector.access()

    def do_a(self, number):
        return " %s/%d" % self.collector.take(number)

    def do_e(self):
        return " %s/%d" % self.collector.take(NOTHING)

    def do_n(self, count, number):
        before = [self.collector.take(number)[0] for _ in range(count - 1)]
        return " %d+%d%s" % (sum("=" in shown for shown in before), sum("|" in shown for shown in before), self.do_a(number))

    def do_h(self):
        c = self.collector
        return " %d.%d.%d.%d" % (c.phase, c.next(), c.polls(), c.left())

    def do_f(self):
        return " fit" if self.collector.is_fit() else " unfit"

    def do_z(self, low, high, count):
        part = whole_scans(range(count % 1025), low, high)
        return " %d" % len(part) + (":%d" % part[-1] if part else "")


if __name__ == "__main__":
    script.run(SHAPES, Bench)
