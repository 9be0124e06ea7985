"""Where every sample went (request M-112): counts that a host keeps beside its board.

Each is counted where it happens: the converter counts what begins, ends and is abandoned,
the sample memory what leaves, is lost and is cleared.  So what is refused counts nowhere.
"""

NAMES = "begun", "ended", "abandoned", "read", "lost", "cleared"


def in_progress(board):
    """1 where the record's STS is 1, else 0."""
    return 1 if board.converter.busy() and "STS" not in board.damaged else 0


class Tally:
    def __init__(self):
        self.begin(0, 0)

    def begin(self, held, running):
        """Zeros, on a board that holds so many samples and has none or one in progress."""
        for name in NAMES:
            setattr(self, name, 0)
        self.held_first, self.running_first = held, running

    def begin_on(self, board):
        """Zeros, on the board as it stands."""
        self.begin(board.samples.held, in_progress(board))

    def count(self, name, number=1):
        setattr(self, name, getattr(self, name) + number)

    def adds_up(self, board):
        """Do both sums hold with the board as it stands?"""
        went = self.read + board.samples.held + self.lost + self.cleared
        done = self.ended + self.abandoned + in_progress(board)
        return self.ended + self.held_first == went and self.begun + self.running_first == done

    def text(self, board):
        counts = ", ".join("%s %d" % (name, getattr(self, name)) for name in NAMES)
        return counts + (": adds up" if self.adds_up(board) else ": does not add up")
