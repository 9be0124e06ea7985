"""Ways to spoil a board, so that it is no working board's any more.

The number is the one of operation z.  Every spoil acts on the record or the
stores as they stand and leaves all that it does not name.  Refusal 2 answers
00 to 04, refusal 1 the others.  24 to 49 damage a flag of the record, which a
working board has as 0 or 1: they take the flags in the record's order.

    00  sample memory has 511 places: the last is cut off
    01  sample memory has 513 places: a 0 is added
    02  sample memory has no place
    03  EEPROM has 127 places: the last is cut off
    04  EEPROM has 129 places: a 0 is added
    05  513 samples held
    06  511 samples held and OVF set
    07  channel selected is 32
    08  low channel is 32
    09  high channel is 32
    0A  a conversion of channel 32 is in progress
    0B  DACBUSY has 101 ticks left
    0C  divider of 100 stands at 100
    0D  divider of 1,000 stands at 1,000
    0E  counter 0 is as after control word 14, but has 1 to load
    0F  counter 0 is as on a fresh board, but its OUT is low
    10  DIN is 16
    11  page is 4
    12  code of output 0 is 4096 (y shows 1000)
    13  output channel 4 is loaded with code 0
    14  output channel 0 is loaded with code 4096
    15  8255 control is 1B: bit 7 clear
    16  8255 control is DB: ModeC set
    17  a transfer of unknown kind runs
    18  calibration address is 128
    19  jumpers are 4
    1A  range code is 16
    1B  counter 0 is as after control word 14, but its mode is 1
    1C  code of output 3 is 4096 (y shows 1000)
    1D  counter 1 is as after control word 54, but has 1 to load
    1E  counter 2 is as after control word 94, but has 1 to load
    1F  counter 1 is as on a fresh board, but its OUT is low
    20  counter 2 is as on a fresh board, but its OUT is low
    21  no sample held and OVF set
    22  8255 control is BB: ModeA set
    23  8255 control is 9F: ModeB set
    24  STS is 2                            25  SCANEN is 2
    26  CLKEN is 2                          27  FIFOEN is 2
    28  CLKSEL is 2                         29  ADINTE is 2
    2A  DINTE is 2                          2B  TINTE is 2
    2C  ADINT is 2                          2D  DINT is 2
    2E  TINT is 2                           2F  OVF is 2
    30  the flag of a loaded output is 2
    31  counter 0: trigger flip-flop is 2   32  counter 0: OUT is 2
    33  counter 0: count waiting is 2       34  counter 0: count loaded is 2
    35  counter 0: count latched is 2       36  counter 0: half read is 2
    37  counter 0: half written is 2
    38  to 3E are those of counter 1        3F  to 45 those of counter 2
    46  key is 2                            47  CMUXEN is 2
    48  Latch level is 2                    49  zero-scale jumper is 2
    4A  place of the oldest sample is 512
    4B  no sample held and the place of the oldest is 5
"""
from counter import LOW_BYTE, Counter


def cut(places, number):
    """The places cut or filled up with 0 to that number."""
    places[:] = (places + [0])[:number]


def held(board, number, overflow):
    board.samples.held, board.samples.overflow = number, overflow


def conversion_of_32(board):
    board.converter.channel = 32
    board.damaged.discard("STS")


def none_held_at_5(board):
    board.samples.held, board.samples.place = 0, 5


def counter_with_1_to_load(board, number):
    counter = Counter()
    counter.program(2, LOW_BYTE)
    counter.to_load = 1
    board.timer.counters[number] = counter


def unprogrammed_with_out_low(board, number):
    counter = Counter()
    counter.unprogrammed_out = False
    board.timer.counters[number] = counter


def counter_in_mode_1(board):
    board.timer.counters[0].program(1, LOW_BYTE)


def output(board, channel):
    board.outputs.codes[channel] = 4096


def flags():
    """The names of the record's flags, in its order."""
    yield from ("STS", "SCANEN", "CLKEN", "FIFOEN", "CLKSEL", "ADINTE", "DINTE", "TINTE",
                "ADINT", "DINT", "TINT", "OVF", "output loaded")
    for number in range(3):
        for flag in ("trigger", "OUT", "waiting", "loaded", "latched", "half read", "half written"):
            yield "counter %d %s" % (number, flag)
    yield from ("key", "CMUXEN", "Latch", "zero scale")


SPOILS = {
    0x00: lambda board: cut(board.samples.places, 511),
    0x01: lambda board: cut(board.samples.places, 513),
    0x02: lambda board: cut(board.samples.places, 0),
    0x03: lambda board: cut(board.calibration.eeprom, 127),
    0x04: lambda board: cut(board.calibration.eeprom, 129),
    0x05: lambda board: setattr(board.samples, "held", 513),
    0x06: lambda board: held(board, 511, True),
    0x07: lambda board: setattr(board.converter, "selected", 32),
    0x08: lambda board: setattr(board.converter, "low", 32),
    0x09: lambda board: setattr(board.converter, "high", 32),
    0x0A: conversion_of_32,
    0x0B: lambda board: setattr(board.outputs, "busy", 101),
    0x0C: lambda board: setattr(board, "divider_100", 100),
    0x0D: lambda board: setattr(board, "divider_1000", 1000),
    0x0E: lambda board: counter_with_1_to_load(board, 0),
    0x0F: lambda board: unprogrammed_with_out_low(board, 0),
    0x10: lambda board: setattr(board, "din", 16),
    0x11: lambda board: setattr(board, "page", 4),
    0x12: lambda board: output(board, 0),
    0x13: lambda board: setattr(board.outputs, "load", (4, 0)),
    0x14: lambda board: setattr(board.outputs, "load", (0, 4096)),
    0x15: lambda board: setattr(board.ports, "control", 0x1B),
    0x16: lambda board: setattr(board.ports, "control", 0xDB),
    0x17: lambda board: setattr(board.calibration, "transfer", 99),
    0x18: lambda board: setattr(board.calibration, "address", 128),
    0x19: lambda board: setattr(board, "jumpers", 4),
    0x1A: lambda board: setattr(board, "range", 16),
    0x1B: counter_in_mode_1,
    0x1C: lambda board: output(board, 3),
    0x1D: lambda board: counter_with_1_to_load(board, 1),
    0x1E: lambda board: counter_with_1_to_load(board, 2),
    0x1F: lambda board: unprogrammed_with_out_low(board, 1),
    0x20: lambda board: unprogrammed_with_out_low(board, 2),
    0x21: lambda board: held(board, 0, True),
    0x22: lambda board: setattr(board.ports, "control", 0xBB),
    0x23: lambda board: setattr(board.ports, "control", 0x9F),
}
for place, name in enumerate(flags()):
    SPOILS[0x24 + place] = lambda board, flag=name: board.damaged.add(flag)
SPOILS[0x4A] = lambda board: setattr(board.samples, "place", 512)
SPOILS[0x4B] = none_held_at_5
