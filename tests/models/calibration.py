"""EEPROM and TrimDAC access (manual chapter 8.4, page 3)."""

KEY = 0xA5
REVISION = 34
EEPROM_PLACES = 128
EE_EN, EE_RW, RUNCAL, CMUXEN, TDACEN = 0x80, 0x40, 0x20, 0x10, 0x08
COMMANDS = EE_EN, RUNCAL, TDACEN

EEPROM_WRITE, EEPROM_READ, RELOAD, TRIMDAC_WRITE = range(1, 5)


def commands(value):
    """How many commands a byte for Base + 14 holds."""
    return sum(1 for command in COMMANDS if value & command)


def kind_of(value):
    """The transfer that such a byte starts, None for none."""
    if value & EE_EN:
        return EEPROM_READ if value & EE_RW else EEPROM_WRITE
    if value & RUNCAL:
        return RELOAD
    return TRIMDAC_WRITE if value & TDACEN else None


class Calibration:
    def __init__(self):
        self.eeprom = [0] * EEPROM_PLACES
        self.trimdac = [0] * 8
        self.reset()

    def reset(self):
        """EEPROM and TrimDAC remain."""
        self.data = 0
        self.address = 0
        self.mux = False            # CMUXEN
        self.key = False
        self.transfer = None        # the kind of the transfer that runs

    def fit(self):
        known = (None, EEPROM_WRITE, EEPROM_READ, RELOAD, TRIMDAC_WRITE)
        return self.transfer in known and 0 <= self.address < EEPROM_PLACES

    def start(self, value):
        self.mux = bool(value & CMUXEN)
        self.transfer = kind_of(value)

    def status(self):
        """Base + 14: TDBUSY, EEBUSY, CMUXEN and TDACEN."""
        trimdac = self.transfer == TRIMDAC_WRITE
        eeprom = self.transfer is not None and not trimdac
        return trimdac << 6 | eeprom << 5 | self.mux << 4 | trimdac << 3

    def end(self):
        """The running transfer ends and has its effect."""
        if self.transfer == EEPROM_WRITE:
            self.eeprom[self.address] = self.data
        elif self.transfer == EEPROM_READ:
            self.data = self.eeprom[self.address]
        elif self.transfer == RELOAD:
            self.trimdac = self.eeprom[:8]
        else:
            self.trimdac[self.address & 7] = self.data
        self.transfer = None
