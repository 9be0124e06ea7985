/* For the C hosts that keep a tally: events as records of numbers, the function beside each kind, and tallies compared. */
#ifndef TALLIES_H
#define TALLIES_H

#include "boards.h"

enum { KINDS = 11 };

static inline void tallied(const char *what, struct dmm32_tally got, struct dmm32_tally want) {
#define COUNT(count) expect(what, #count, (int64_t)got.count, (int64_t)want.count);
    COUNT(begun) COUNT(ended) COUNT(abandoned) COUNT(read) COUNT(lost) COUNT(cleared)
#undef COUNT
}

/* numbers of all widths; an event begins as these, since what a kind does not have is not looked at */
static inline struct dmm32_event any_numbers(void) {
    uint32_t offset = below(4) ? below(24) : below(UINT32_MAX), levels = below(4) ? below(24) : below(UINT32_MAX);
    return (struct dmm32_event){ 0, (uint8_t)below(256), (int16_t)below(65536), offset, levels };
}

/* an event of a kind, whose number is its offset, its levels, its code or the levels of a port's pins; all else is any number, but for the byte of a write */
static inline struct dmm32_event event_of(uint8_t kind, uint32_t number, uint8_t byte) {
    struct dmm32_event e = any_numbers();
    e.kind = kind;
    if (kind <= COWRIESTEP_EVENT_READ_WORD) e.offset = number;
    if (kind == COWRIESTEP_EVENT_WRITE_BYTE) e.value = byte;
    if (kind == COWRIESTEP_EVENT_CONVERSION_END) e.code = (int16_t)number;
    if (kind == COWRIESTEP_EVENT_DIN || kind == COWRIESTEP_EVENT_LATCH) e.levels = number;
    if (kind >= COWRIESTEP_EVENT_PORT_A_PINS && kind <= COWRIESTEP_EVENT_PORT_C_PINS) e.value = (uint8_t)number;
    return e;
}

/* the function that stands beside an event's kind, 1 to 11, with any lengths */
static inline uint32_t called(struct lent *l, size_t memory_length, size_t eeprom_length, struct dmm32_event e) {
#define ALL &l->board, l->memory, memory_length, l->eeprom, eeprom_length
    switch (e.kind) {
    case COWRIESTEP_EVENT_WRITE_BYTE: return dmm32_write_byte(ALL, e.offset, e.value);
    case COWRIESTEP_EVENT_READ_BYTE: return dmm32_read_byte(ALL, e.offset);
    case COWRIESTEP_EVENT_READ_WORD: return dmm32_read_word(ALL, e.offset);
    case COWRIESTEP_EVENT_CONVERSION_END: return dmm32_conversion_end(ALL, e.code);
    case COWRIESTEP_EVENT_DIN: return dmm32_din(ALL, e.levels);
    case COWRIESTEP_EVENT_LATCH: return dmm32_latch(ALL, e.levels);
    case COWRIESTEP_EVENT_PORT_A_PINS: return dmm32_port_a_pins(ALL, e.value);
    case COWRIESTEP_EVENT_PORT_B_PINS: return dmm32_port_b_pins(ALL, e.value);
    case COWRIESTEP_EVENT_PORT_C_PINS: return dmm32_port_c_pins(ALL, e.value);
    case COWRIESTEP_EVENT_TICK: return dmm32_tick(ALL);
    default: return dmm32_transfer_end(ALL);
    }
#undef ALL
}

#endif
