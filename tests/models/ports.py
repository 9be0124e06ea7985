"""The 82C55-type digital I/O in mode 0 (manual chapter 16, page 1)."""

ALL_INPUTS = 0x9B
DIR_A, DIR_CH, DIR_B, DIR_CL = 0x10, 0x08, 0x02, 0x01       # 1 is input


def accepted(control):
    """Bit 7 set and ModeC, ModeA, ModeB clear."""
    return control & 0xE4 == 0x80


class Ports:
    def __init__(self):
        self.pins = [0, 0, 0]
        self.reset()

    def reset(self):
        self.set_control(ALL_INPUTS)

    def set_control(self, control):
        """An accepted control byte clears the output latches."""
        self.control = control
        self.latches = [0, 0, 0]

    def fit(self):
        return accepted(self.control)

    def driven(self, port):
        """The lines of port A, B or C that are outputs."""
        if port == 0:
            return 0 if self.control & DIR_A else 0xFF
        if port == 1:
            return 0 if self.control & DIR_B else 0xFF
        return ((0 if self.control & DIR_CH else 0xF0)
                | (0 if self.control & DIR_CL else 0x0F))

    def levels(self, port):
        """The levels on the driven lines, 0 on the others."""
        return self.latches[port] & self.driven(port)

    def read(self, port):
        """Output lines read the latch, input lines the pins."""
        return self.levels(port) | self.pins[port] & ~self.driven(port)
