"""The A/D converter and its channel counter (manual chapters 10.1 and 11)."""

CHANNELS = 32


class Converter:
    def __init__(self, tally):
        self.tally = tally
        self.clear()

    def clear(self):
        self.low = 0
        self.high = 0
        self.selected = 0
        self.channel = None         # of the conversion in progress

    def reset(self):
        """Part of every reset of the board: a conversion in progress is abandoned."""
        if self.busy():
            self.tally.count("abandoned")
        self.clear()

    def fit(self):
        channels = [self.low, self.high, self.selected, self.channel or 0]
        return all(0 <= channel < CHANNELS for channel in channels)

    def set_low(self, channel):
        self.low = self.selected = channel

    def set_high(self, channel):
        self.high = channel
        self.selected = self.low

    def busy(self):
        """STS.  A scan has no time between its conversions."""
        return self.channel is not None

    def trigger(self):
        """Starts a conversion unless a conversion or scan runs."""
        if not self.busy():
            self.begin()

    def begin(self):
        """The selection moves as the conversion begins."""
        self.tally.count("begun")
        self.channel = self.selected
        if self.selected == self.high:
            self.selected = self.low
        else:
            self.selected = (self.selected + 1) % CHANNELS

    def end(self, scan):
        """A conversion is done; was it a single one or the scan's last?"""
        self.tally.count("ended")
        last = not scan or self.channel == self.high
        if last:
            self.channel = None
        else:
            self.begin()
        return last
