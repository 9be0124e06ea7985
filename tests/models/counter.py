"""One counter of the 82C54: modes 0 and 2, binary.

Made from the specification ("Conversions, edges and requests", the paragraph on
counters) and the 82C54 data sheet at the end of the manual.  It keeps no count
and no level of OUT.  A counter remembers the count that was loaded last and how
many CLK pulses were counted since; the count and OUT follow from these.
"""

NOT_MODELLED = 7                                # refusal number
LOW_BYTE, HIGH_BYTE, BOTH_BYTES = 1, 2, 3       # RW1 RW0 of a control word
WHOLE = 1 << 16                                 # what a count of 0 stands for


class Counter:
    """One counter.  The names CR, CE and OL are those of the data sheet."""

    def __init__(self):
        self.mode = None            # None while unprogrammed, else 0 or 2
        self.format = None
        self.gate = True
        self.unprogrammed_out = True
        self.reset_control_logic()

    def reset_control_logic(self):
        """What a control word does to a counter besides its mode and format."""
        self.first_byte = None      # low byte of a count whose high byte is due
        self.high_byte_due = False  # the low byte was read, the high was not
        self.latched = None         # OL, while it does not follow CE
        self.to_load = None         # CR: the last whole count written, 1 to 65,536
        self.waiting = False        # mode 0: CR is loaded on the next CLK pulse
        self.loaded = None          # the count that CE was loaded with
        self.pulses = 0             # CLK pulses counted since then
        self.trigger = False        # the edge-sensitive flip-flop of mode 2

    # What can be seen of a counter

    @property
    def count(self):
        """CE: zero after a control word "until a whole count is loaded"."""
        return 0 if self.loaded is None else (self.loaded - self.pulses) % WHOLE

    @property
    def out(self):
        if self.mode is None:
            return self.unprogrammed_out
        return self.out_of_mode_0() if self.mode == 0 else self.out_of_mode_2()

    def out_of_mode_0(self):
        """High from terminal count until any byte of a new count is written."""
        return (self.loaded is not None and self.pulses >= self.loaded
                and not self.waiting and self.first_byte is None)

    def out_of_mode_2(self):
        """Low while the count is 1, for a gate that never fell since."""
        return not (self.last_pulse_of_period() and self.gate
                    and not self.trigger)

    def last_pulse_of_period(self):
        return self.loaded is not None and self.pulses == self.loaded - 1

    def fit(self):
        """What the specification asks of a counter of a working board."""
        if self.mode is None:
            return self.out
        return self.mode in (0, 2) and not (self.mode == 2 and self.to_load == 1)

    # Access by the bus

    def program(self, mode, byte_format):
        self.mode, self.format = mode, byte_format
        self.reset_control_logic()

    def latch(self):
        """A second latch command is ignored until the count is read."""
        if self.mode is not None and self.latched is None:
            self.latched = self.count

    def read(self):
        if self.mode is None:
            return 0
        shown = self.count if self.latched is None else self.latched
        if self.format == BOTH_BYTES and not self.high_byte_due:
            self.high_byte_due = True
            return shown & 0xFF
        self.high_byte_due = False
        self.latched = None
        return shown & 0xFF if self.format == LOW_BYTE else shown >> 8

    def write(self, byte):
        """A byte of a count; the refusal, or None."""
        if self.mode is None:
            return NOT_MODELLED
        if self.format == BOTH_BYTES and self.first_byte is None:
            self.first_byte = byte
            return None
        return self.write_whole(self.assembled(byte))

    def assembled(self, last_byte):
        if self.format == LOW_BYTE:
            return last_byte
        return (last_byte << 8) + (self.first_byte or 0)

    def write_whole(self, count):
        if self.mode == 2 and count == 1:
            return NOT_MODELLED
        self.first_byte = None
        self.to_load = count or WHOLE
        self.waiting = self.mode == 0
        return None

    # Gate and clock

    def set_gate(self, level):
        if self.mode == 2 and level and not self.gate:
            self.trigger = True
        self.gate = level

    def load_is_due(self):
        """Does the next CLK pulse load CE whatever the gate's level?"""
        if self.to_load is None:
            return False
        if self.mode == 0:
            return self.waiting
        return self.loaded is None or self.trigger

    def load(self):
        self.loaded, self.pulses, self.waiting = self.to_load, 0, False

    def clock(self, number):
        """`number` CLK pulses; says how often OUT falls meanwhile."""
        if self.mode is None or number == 0:
            return 0
        if self.load_is_due():
            self.load()
            number -= 1
        self.trigger = False
        if self.loaded is None or not self.gate:
            return 0
        return self.count_on(number)

    def count_on(self, number):
        """Pulses that find the gate high and no count that waits."""
        if self.mode == 0:
            if self.first_byte is None:
                self.pulses += number
            return 0
        before = self.falls_until(self.pulses)
        left = self.loaded - self.pulses
        if number < left:
            self.pulses += number
            return self.falls_until(self.pulses) - before
        self.load()
        self.pulses = (number - left) % self.loaded
        return 1 - before + self.falls_until(number - left)

    def falls_until(self, pulses):
        """How often OUT fell in so many pulses after a load in mode 2."""
        return (pulses + 1) // self.loaded
