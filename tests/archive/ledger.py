"""The conversions of a script, and where in the script a run ends."""
import sys
from types import SimpleNamespace


class Where:
    """The line of the script that is being read."""
    line = 0


def must(holds, message):
    if not holds:
        sys.exit("line %d: %s" % (Where.line, message))


class Ledger:
    """The conversions begun since a start ended, in order, and how many of them were handed over."""

    def __init__(self):
        self.run, self.handed, self.last = [], 0, None

    def begin(self, channel):
        self.last = SimpleNamespace(channel=channel, code=None, fate="running")
        self.run.append(self.last)

    def start_ends(self):
        must(self.last is None or self.last.fate != "running", "a conversion runs when the start ends")
        self.run, self.handed = [], 0

    def hand(self, channel, code):
        """Condition 3: a sample handed over is the next conversion begun, it was kept, and channel and code are its."""
        must(self.handed < len(self.run), "a sample of no conversion")
        conversion = self.run[self.handed]
        must(conversion.fate == "kept", "a conversion that is %s is handed over" % conversion.fate)
        must((conversion.channel, conversion.code) == (channel, code), "channel or code differ")
        self.handed += 1
        return "%d %d" % (conversion.channel, conversion.code)

    def waiting(self):
        return [conversion.code for conversion in self.run[self.handed:] if conversion.fate == "kept"]
