"""The sample memory (manual chapters 10 and 11.2, "the A/D FIFO"; requests M-105, M-112)."""

PLACES = 512
HALF = 256


class SampleMemory:
    """A circle: samples stand from the oldest's place on, round the end; free places are 0."""

    def __init__(self, tally):
        self.tally = tally
        self.places = [0] * PLACES
        self.held = 0
        self.place = 0              # of the oldest sample; 0 when none is held
        self.overflow = False

    def free(self):
        """What the free places have: one stretch where samples go round the end, else two."""
        behind = self.place + self.held
        if behind > PLACES:
            return self.places[behind - PLACES:self.place]
        return self.places[behind:] + self.places[:self.place]

    def fit(self):
        """Is this the memory of a working board?"""
        if not (0 <= self.held <= PLACES and 0 <= self.place < PLACES):
            return False
        if self.empty() and self.place != 0:
            return False
        if self.overflow and self.held != PLACES:
            return False
        return not any(self.free())

    def reset(self):
        """FIFORST, and part of every reset of the board."""
        self.tally.count("cleared", self.held)
        self.places[:] = [0] * len(self.places)
        self.held = 0
        self.place = 0
        self.overflow = False

    def store(self, code):
        """The sample goes behind the newest; with 512 held it is lost and sets OVF."""
        if self.held == PLACES:
            self.overflow = True
            self.tally.count("lost")
        else:
            self.places[(self.place + self.held) % PLACES] = code
            self.held += 1

    def empty(self):
        return self.held == 0

    def oldest(self):
        """The oldest sample as the byte reads show it; all ones when there is none."""
        return 0xFFFF if self.empty() else self.places[self.place]

    def remove(self):
        """The oldest sample leaves, its place becomes 0 and OVF clears; no change when empty."""
        if self.empty():
            return
        self.tally.count("read")
        self.places[self.place] = 0
        self.held -= 1
        self.place = 0 if self.empty() else (self.place + 1) % PLACES
        self.overflow = False

    def ends(self):
        """The oldest and the newest, read round the places that there are, or None."""
        places = len(self.places)
        if self.place >= places or self.held > places or self.empty():
            return None
        return self.places[self.place], self.places[(self.place + self.held - 1) % places]

    def flags(self):
        """EF, HF, FF and OVF at bits 7 to 4, as Base + 7 shows them."""
        return (self.empty() << 7 | (self.held >= HALF) << 6
                | (self.held == PLACES) << 5 | self.overflow << 4)
