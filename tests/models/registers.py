"""The sixteen registers and their pages (manual chapters 6 to 8)."""
import calibration
import ports

RESETA, RESETD, INTRST = 0x20, 0x10, 0x08                   # Base + 8
FIFOEN, SCANEN, FIFORST = 0x08, 0x04, 0x02                  # Base + 7
ADINTE, DINTE, TINTE, CLKEN, CLKSEL = 0x80, 0x40, 0x20, 0x02, 0x01      # Base + 9
FREQ12, FREQ0, OUT2EN, OUT0EN = 0x80, 0x40, 0x20, 0x10                  # Base + 10
GT0EN, SRC0, GT12EN = 0x04, 0x02, 0x01
SINGLE_ENDED = {0: 0x60, 1: 0x00, 2: 0x40, 3: 0x20}         # S/D1, S/D0 by jumpers


def read(board, offset):
    """The byte that a read of an offset up to 15 gives, with its effect."""
    if offset >= 12:
        return READ_PAGE[board.page](board, offset - 12)
    return READ[offset](board)


def write(board, offset, value):
    if offset >= 12:
        WRITE_PAGE[board.page](board, offset - 12, value)
    else:
        WRITE[offset](board, value)


# Reads of 0 to 11

def read_ad_msb(board):
    value = board.samples.oldest() >> 8
    board.samples.remove()
    return value


def read_auxiliary_inputs(board):
    transfers = board.calibration.transfer is not None
    return (board.outputs.busy > 0) << 7 | transfers << 6 | board.din


def update_da(board):
    board.outputs.update()
    return 0


def read_fifo_status(board):
    return board.samples.flags() | board.fifoen << 3 | board.scanen << 2 | board.page


def read_ad_status(board):
    return (board.converter.busy() << 7 | SINGLE_ENDED[board.jumpers]
            | board.converter.selected)


READ = {
    0: lambda board: board.samples.oldest() & 0xFF,
    1: read_ad_msb,
    2: lambda board: board.converter.low,
    3: lambda board: board.converter.high,
    4: read_auxiliary_inputs,
    5: update_da,
    6: lambda board: board.depth,
    7: read_fifo_status,
    8: read_ad_status,
    9: lambda board: board.requests | board.operation & (CLKEN | CLKSEL),
    10: lambda board: board.configuration,
    11: lambda board: board.range,
}


# Writes of 0 to 11

def software_trigger(board, _value):
    """Ignored while CLKEN = 1."""
    if not board.operation & CLKEN:
        board.converter.trigger()


def write_dout(board, value):
    board.dout = value & 7


def write_da_lsb(board, value):
    board.outputs.low_byte = value


def write_depth(board, value):
    board.depth = value


def write_fifo_control(board, value):
    board.fifoen = bool(value & FIFOEN)
    board.scanen = bool(value & SCANEN)
    if value & FIFORST:
        board.samples.reset()


def write_miscellaneous(board, value):
    """A reset beats INTRST, which leaves page and key alone."""
    if value & (RESETA | RESETD):
        board.reset(analog=bool(value & RESETA))
    elif value & INTRST:
        board.requests = 0
    else:
        board.page = value & 3
        board.calibration.key = False


def write_operation(board, value):
    board.operation = value & (ADINTE | DINTE | TINTE | CLKEN | CLKSEL)


def write_configuration(board, value):
    """May move a gate, but is no clock edge and no trigger."""
    board.configuration = value
    board.set_gates()


def write_range(board, value):
    board.range = value & 15


WRITE = {
    0: software_trigger,
    1: write_dout,
    2: lambda board, value: board.converter.set_low(value & 31),
    3: lambda board, value: board.converter.set_high(value & 31),
    4: write_da_lsb,
    5: lambda board, value: board.outputs.write_high_byte(value),
    6: write_depth,
    7: write_fifo_control,
    8: write_miscellaneous,
    9: write_operation,
    10: write_configuration,
    11: write_range,
}


# Page 0, the 82C54

def read_timer(board, place):
    return 0 if place == 3 else board.timer.read(place)


def write_timer(board, place, value):
    def access():
        if place == 3:
            return board.timer.control(value)
        return board.timer.write(place, value)
    if board.use_timer(access) is not None:
        board.not_modelled()


# Page 1, the 82C55

def read_ports(board, place):
    return board.ports.control if place == 3 else board.ports.read(place)


def write_ports(board, place, value):
    if place < 3:
        board.ports.latches[place] = value
    elif ports.accepted(value):
        board.ports.set_control(value)
    else:
        board.not_modelled()


# Page 2: only its offset 15 is defined, and not modelled

def read_page_2(board, place):
    return board.not_modelled() if place == 3 else 0


def write_page_2(board, place, _value):
    if place == 3:
        board.not_modelled()


# Page 3, calibration

def read_calibration(board, place):
    part = board.calibration
    return (part.data, part.address, part.status(), calibration.REVISION)[place]


def write_calibration(board, place, value):
    part = board.calibration
    if place == 0:
        part.data = value
    elif place == 1:
        part.address = value & 0x7F
    elif place == 2:
        part.start(value)
    else:
        part.key = value == calibration.KEY


READ_PAGE = read_timer, read_ports, read_page_2, read_calibration
WRITE_PAGE = write_timer, write_ports, write_page_2, write_calibration
