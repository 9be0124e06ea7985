/* For the C hosts: the fields of the board's record, and a count of what was compared. */
#ifndef RECORD_H
#define RECORD_H

#include <stdio.h>
#include <string.h>

#include "cowriestep.h"

static long compared, differ;

static void expect(const char *host, const char *what, int64_t got, int64_t want) {
    compared++;
    if (got != want && ++differ <= 10) printf("%s: %s is %lld, not %lld\n", host, what, (long long)got, (long long)want);
}

/* every number of the board's record */
#define COUNTER_FIELDS(F, c) \
    F(clocks.timer.c.control) F(clocks.timer.c.trigger) F(clocks.timer.c.count.count_register) F(clocks.timer.c.count.element) F(clocks.timer.c.count.out) \
    F(clocks.timer.c.count.waiting) F(clocks.timer.c.count.loaded) F(clocks.timer.c.bytes.latch) F(clocks.timer.c.bytes.latched) \
    F(clocks.timer.c.bytes.halfread) F(clocks.timer.c.bytes.first) F(clocks.timer.c.bytes.halfwritten)
#define BOARD_FIELDS(F) \
    F(converter.low) F(converter.high) F(converter.selected) F(converter.channel) F(converter.converting) F(converter.scanen) F(converter.clken) \
    F(requests.threshold) F(requests.fifoen) F(requests.clksel) F(requests.adinte) F(requests.dinte) F(requests.tinte) \
    F(requests.flags.adint) F(requests.flags.dint) F(requests.flags.tint) F(fifo.held) F(fifo.place) F(fifo.ovf) \
    F(registers.page) F(registers.dout) F(registers.counting) F(registers.range) \
    F(outputs.codes.out0) F(outputs.codes.out1) F(outputs.codes.out2) F(outputs.codes.out3) \
    F(outputs.load.loaded) F(outputs.load.channel) F(outputs.load.code) F(outputs.lsb) F(outputs.busy) \
    COUNTER_FIELDS(F, counter0) COUNTER_FIELDS(F, counter1) COUNTER_FIELDS(F, counter2) F(clocks.hundred) F(clocks.thousand) \
    F(ports.control) F(ports.latches.a) F(ports.latches.b) F(ports.latches.c) F(ports.pins.a) F(ports.pins.b) F(ports.pins.c) \
    F(calibration.value) F(calibration.address) F(calibration.transfer) F(calibration.key) F(calibration.cmuxen) \
    F(calibration.trim[0]) F(calibration.trim[1]) F(calibration.trim[2]) F(calibration.trim[3]) \
    F(calibration.trim[4]) F(calibration.trim[5]) F(calibration.trim[6]) F(calibration.trim[7]) \
    F(pins.din) F(pins.latch) F(wiring.inputs) F(wiring.zeroscale)

/* those of them that are flags: 0 or 1 in a working board */
#define COUNTER_FLAGS(F, c) \
    F(clocks.timer.c.trigger) F(clocks.timer.c.count.out) F(clocks.timer.c.count.waiting) F(clocks.timer.c.count.loaded) \
    F(clocks.timer.c.bytes.latched) F(clocks.timer.c.bytes.halfread) F(clocks.timer.c.bytes.halfwritten)
#define BOARD_FLAGS(F) \
    F(converter.converting) F(converter.scanen) F(converter.clken) F(requests.fifoen) F(requests.clksel) F(requests.adinte) F(requests.dinte) \
    F(requests.tinte) F(requests.flags.adint) F(requests.flags.dint) F(requests.flags.tint) F(fifo.ovf) F(outputs.load.loaded) \
    COUNTER_FLAGS(F, counter0) COUNTER_FLAGS(F, counter1) COUNTER_FLAGS(F, counter2) F(calibration.key) F(calibration.cmuxen) F(pins.latch) F(wiring.zeroscale)

#endif
