"""The board: its events, requests and refusals.

Made from the specification ("What is delivered", "Refusal numbers",
"Conversions, edges and requests"), requests M-100, M-105 and M-112 and the manual.  An
event is a method; its name and numbers are first looked at by `refusal`.
"""
import calibration
import registers
from calibration import Calibration
from converter import Converter
from counter import NOT_MODELLED
from outputs import Outputs
from ports import Ports
from registers import (ADINTE, CLKEN, CLKSEL, DINTE, FREQ0, FREQ12, GT0EN, GT12EN,
                       SRC0, TINTE)
from samples import PLACES, SampleMemory
from tally import Tally
from timer import Timer

DIN0, DIN1, DIN2, DIN3 = 1, 2, 4, 8
NOTHING = "empty"                       # what a word read answers where no sample is there


class Refused(Exception):
    """Carries the refusal number; nothing has changed."""


class Board:
    def __init__(self, jumpers=0, zero_scale=False):
        self.jumpers = jumpers          # 0 to 3: A, B, C, D of chapter 5.4
        self.tally = Tally()            # where the samples went
        self.samples = SampleMemory(self.tally)
        self.converter = Converter(self.tally)
        self.outputs = Outputs(zero_scale)
        self.ports = Ports()
        self.calibration = Calibration()
        self.timer = Timer()
        self.divider_100 = 0            # ticks since the last 100 kHz clock
        self.divider_1000 = 0           # ticks since the last 10 kHz clock
        self.din = 15
        self.latch = False
        self.damaged = set()            # flags of the record that are neither 0 nor 1
        self.reset_registers()

    def reset_registers(self):
        self.page = 0
        self.dout = 0                   # Base + 1
        self.depth = 0                  # Base + 6
        self.fifoen = self.scanen = False
        self.operation = 0              # Base + 9, enables and clock bits
        self.requests = 0               # ADINT, DINT, TINT at their enables' bits
        self.configuration = 0          # Base + 10
        self.range = 0                  # Base + 11

    def reset(self, analog):
        """RESETA (`analog`) or RESETD; the gates follow register 10."""
        self.reset_registers()
        self.samples.reset()
        self.converter.reset()
        self.outputs.reset()
        if analog:
            self.outputs.reset_codes()
        self.ports.reset()
        self.calibration.reset()
        self.set_gates()

    # Refusals

    def fit(self):
        """Is the record, with its sample memory, a working board's?"""
        parts = (self.samples, self.converter, self.outputs, self.ports,
                 self.calibration, self.timer)
        return (all(part.fit() for part in parts) and not self.damaged and self.page < 4
                and self.jumpers < 4 and self.din < 16 and self.range < 16
                and self.divider_100 < 100 and self.divider_1000 < 1000)

    def refusal(self, event, *numbers):
        """The refusals 2, 1, 3, 5, 4, 10, 6, 9, 8 in the order of checks."""
        if (len(self.samples.places) != PLACES
                or len(self.calibration.eeprom) != calibration.EEPROM_PLACES):
            return 2
        if not self.fit():
            return 1
        if event in ("read", "write") and numbers[0] > 15:
            return 3
        if event == "word_read" and numbers[0] != 0:
            return 3
        if event == "din_pins" and numbers[0] > 15:
            return 5
        if event == "conversion_end" and not self.converter.busy():
            return 4
        if event == "transfer_end" and self.calibration.transfer is None:
            return 10
        return self.refusal_of_write(*numbers) if event == "write" else None

    def refusal_of_write(self, offset, value):
        transfers = self.calibration.transfer is not None
        if offset in (4, 5) and self.outputs.busy:
            return 6
        if self.page != 3:
            return None
        if offset in (12, 13, 14) and transfers:
            return 6
        if offset == 14 and calibration.commands(value) > 1:
            return 9
        if offset == 14 and value & calibration.EE_EN and not self.calibration.key:
            return 8
        return None

    def event(self, name, *numbers):
        """The answer to an event, or an exception with the refusal number."""
        number = self.refusal(name, *numbers)
        if number is not None:
            raise Refused(number)
        return getattr(self, name)(*numbers)

    # Bus accesses

    def read(self, offset):
        return registers.read(self, offset)

    def write(self, offset, value):
        registers.write(self, offset, value)

    def word_read(self, _offset):
        """Base + 0 then Base + 1 as one event; it says whether that was a sample (M-100)."""
        empty = self.samples.empty()
        word = registers.read(self, 0) | registers.read(self, 1) << 8
        return NOTHING if empty else word

    def not_modelled(self):
        raise Refused(NOT_MODELLED)

    # The converter

    def conversion_end(self, code):
        self.samples.store(code)
        last = self.converter.end(self.scanen)
        reached = self.samples.held >= 2 * self.depth
        if last and (not self.fifoen or reached):
            self.request(ADINTE)

    def request(self, enable):
        """Sets ADINT, DINT or TINT if its enable bit is set."""
        self.requests |= self.operation & enable

    # Pins

    def din_pins(self, pins):
        """Gates first, then counter 0's clock, then the A/D trigger."""
        falling = self.din & ~pins
        self.din = pins
        self.set_gates()
        if self.configuration & SRC0 and falling & DIN0:
            self.clock_timer(0, 1)
        gated = self.configuration & GT12EN and not pins & DIN2
        if falling & DIN3 and self.operation & (CLKEN | CLKSEL) == CLKEN and not gated:
            self.converter.trigger()

    def set_gates(self):
        self.timer.set_gates(
            not self.configuration & GT0EN or bool(self.din & DIN1),
            not self.configuration & GT12EN or bool(self.din & DIN2))

    def latch_level(self, level):
        """0 is low, any other number high."""
        high = level != 0
        if high and not self.latch:
            self.request(DINTE)
        self.latch = high

    def port_pins(self, port, levels):
        self.ports.pins[port] = levels

    # The timer and the ticks of 10 MHz

    def use_timer(self, access):
        """An access to the timer, and what a falling OUT0 or OUT2 does."""
        before = list(self.timer.falls)
        answer = access()
        if self.timer.falls[0] > before[0]:
            self.request(TINTE)
        clocked = self.operation & (CLKEN | CLKSEL) == CLKEN | CLKSEL
        if self.timer.falls[2] > before[2] and clocked:
            self.converter.trigger()
        return answer

    def clock_timer(self, counter, pulses):
        self.use_timer(lambda: self.timer.clock(counter, pulses))

    def ticks(self, number):
        """So many ticks at once: no event can come between them."""
        clocks_100, self.divider_100 = divmod(self.divider_100 + number, 100)
        clocks_1000, self.divider_1000 = divmod(self.divider_1000 + number, 1000)
        if not self.configuration & SRC0:
            self.clock_timer(0, clocks_1000 if self.configuration & FREQ0 else number)
        self.clock_timer(1, clocks_100 if self.configuration & FREQ12 else number)
        self.outputs.ticks(number)

    def transfer_end(self):
        self.calibration.end()
