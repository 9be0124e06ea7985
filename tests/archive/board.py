"""A small board, made from the specification: what the worlds need of it, with a memory of bare codes."""
from ledger import must

SINGLE_ENDED = [0x60, 0x00, 0x40, 0x20]  # S/D1 and S/D0 in a read of 8, by jumper
MEMORY = 512
NOTHING = None  # the answer to a word read of an empty memory (M-100)


class Counter:
    """Mode 2 with a count of one byte; mode 0 only as far as its control word, which lowers OUT."""

    def __init__(self):
        self.programmed, self.out, self.gate = False, True, True
        self.count, self.to_load, self.reload = 0, None, False

    def control(self, byte):
        """A control word; true when OUT falls."""
        must(byte & 0x3F in (0x10, 0x14), "control word not modelled here")
        before, self.out, self.programmed = self.out, byte & 4 != 0, True
        self.count, self.to_load, self.reload = 0, None, False
        return before and not self.out

    def load(self, byte):
        if not self.programmed or byte == 1:
            return 7
        self.reload, self.to_load = self.reload or self.to_load is None, byte
        return 0

    def set_gate(self, level):
        if level != self.gate and self.to_load is not None:
            self.reload, self.out = self.reload or level, True
        self.gate = level

    def clock(self):
        """One clock; true when OUT falls."""
        if self.to_load is None or not (self.gate or self.reload):
            return False
        self.count = self.to_load if self.reload or self.count == 1 else (self.count - 1) & 0xFFFF
        self.reload, self.out = False, self.count != 1
        return not self.out


class Board:
    """Conversions, memory and clocks. Each event answers its refusal, 0 for none; reads leave their value in answer."""

    def __init__(self, jumpers, ledger):
        self.jumpers, self.ledger, self.pins, self.ticks, self.ends, self.answer = jumpers, ledger, 15, 0, 0, 0
        self.counters = [Counter(), Counter(), Counter()]
        self.reset()

    def reset(self):
        self.low = self.high = self.selected = self.page = self.clock = self.config = self.control7 = 0
        self.memory, self.overflow, self.transfer, self.converting = [], False, False, None
        if self.ledger.last:
            self.ledger.last.fate = "abandoned"
        self.set_gates()

    def set_gates(self):
        for counter in self.counters[1:]:
            counter.set_gate(not self.config & 1 or self.pins & 4 != 0)

    def trigger(self):
        if self.converting is None:
            self.converting = self.selected
            self.ledger.begin(self.selected)
            self.selected = self.low if self.selected == self.high else (self.selected + 1) % 32

    def out_fell(self, number):
        if number == 1 and self.counters[2].clock():
            self.out_fell(2)
        elif number == 2 and self.clock == 3:
            self.trigger()

    def conversion_end(self, code):
        if self.converting is None:
            return 4
        self.ends += 1
        kept = len(self.memory) < MEMORY
        self.memory += [code] * kept
        self.overflow = not kept
        self.ledger.last.code, self.ledger.last.fate = code, "kept" if kept else "lost"
        ended, self.converting = self.converting, None
        if self.control7 & 4 and ended != self.high:
            self.trigger()
        return 0

    def din(self, pins):
        if pins > 15:
            return 5
        fell, self.pins = self.pins & ~pins, pins
        self.set_gates()
        if fell & 8 and self.clock == 2 and (not self.config & 1 or pins & 4):
            self.trigger()
        return 0

    def tick(self):
        self.ticks += 1
        if (not self.config & 0x80 or self.ticks % 100 == 0) and self.counters[1].clock():
            self.out_fell(1)
        return 0

    def transfer_end(self):
        ran, self.transfer = self.transfer, False
        return 0 if ran else 10

    def word_read(self):
        self.answer = NOTHING
        if self.memory:
            self.answer, self.overflow = self.memory.pop(0), False
        return 0

    def read(self, offset):
        if offset > 15 or offset == 15 and self.page == 2:
            return 3 if offset > 15 else 7
        if offset == 1:
            self.word_read()
        elif offset in (7, 8):
            self.answer = self.view(offset)
        return 0

    def view(self, offset):
        held = len(self.memory)
        if offset == 8:
            return (self.converting is not None) << 7 | SINGLE_ENDED[self.jumpers] | self.selected
        flags = (held == 0) << 7 | (held >= 256) << 6 | (held == MEMORY) << 5 | self.overflow << 4
        return flags | self.control7 | self.page

    def write(self, offset, byte):
        if offset > 11:
            return 3 if offset > 15 else self.write_paged(offset, byte)
        if offset == 0 and not self.clock & 2:
            self.trigger()
        elif offset in (2, 3):
            self.low, self.high = (byte & 31, self.high) if offset == 2 else (self.low, byte & 31)
            self.selected = self.low
        elif offset == 7:
            self.control7 = byte & 12
            if byte & 2:
                self.memory, self.overflow = [], False
        elif offset == 8 and byte & 0x30:
            self.reset()
        elif offset == 8 and not byte & 8:
            self.page = byte & 3
        elif offset == 9:
            self.clock = byte & 3
        elif offset == 10:
            self.config = byte
            self.set_gates()
        must(offset not in (4, 5), "outputs are not modelled here")
        return 0

    def write_paged(self, offset, byte):
        if self.page == 0 and offset < 15:
            return self.counters[offset - 12].load(byte)
        if self.page == 0 and self.counters[byte >> 6].control(byte):
            self.out_fell(byte >> 6)
        if self.page == 2 and offset == 15:
            return 7
        if self.page == 3 and offset < 15 and self.transfer:
            return 6
        if self.page == 3 and offset == 14:
            must(byte in (0x08, 0x20), "calibration command not modelled here")
            self.transfer = True
        return 0
