"""The four analog outputs (manual, Base + 4 and Base + 5, chapter 14)."""

MID_SCALE, ZERO_SCALE = 2048, 0
BUSY_TICKS = 100                    # 10 microseconds of 10 MHz


class Outputs:
    def __init__(self, zero_scale):
        self.zero_scale = zero_scale
        self.reset()
        self.reset_codes()

    def reset(self):
        """What RESETA and RESETD both do."""
        self.low_byte = 0           # the holding register at Base + 4
        self.load = None            # channel and code in the load register
        self.busy = 0               # ticks of DACBUSY left

    def reset_codes(self):
        """What RESETA does besides."""
        self.codes = [ZERO_SCALE if self.zero_scale else MID_SCALE] * 4

    def fit(self):
        channel, code = self.load or (0, 0)
        return (0 <= self.busy <= BUSY_TICKS and channel < 4
                and all(each < 4096 for each in self.codes + [code]))

    def write_high_byte(self, value):
        self.load = value >> 6, (value & 15) << 8 | self.low_byte
        self.busy = BUSY_TICKS

    def update(self):
        """The channel loaded last takes its code."""
        if self.load is not None and self.busy == 0:
            channel, code = self.load
            self.codes[channel] = code

    def ticks(self, number):
        self.busy = max(0, self.busy - number)
