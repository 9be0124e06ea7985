/* One event of any kind in hand-written C: a switch over the events of bench/baseline.c, compiled with them. */
#include "baseline.c"

#define LENT b, memory, memory_length, eeprom, eeprom_length

uint32_t BASELINE(step)(struct dmm32_board *b, uint16_t *memory, size_t memory_length, uint8_t *eeprom, size_t eeprom_length, struct dmm32_event e)
{
    switch (e.kind) {
    case COWRIESTEP_EVENT_WRITE_BYTE:
        return BASELINE(write_byte)(LENT, e.offset, e.value);
    case COWRIESTEP_EVENT_READ_BYTE:
        return BASELINE(read_byte)(LENT, e.offset);
    case COWRIESTEP_EVENT_READ_WORD:
        return BASELINE(read_word)(LENT, e.offset);
    case COWRIESTEP_EVENT_CONVERSION_END:
        return BASELINE(conversion_end)(LENT, e.code);
    case COWRIESTEP_EVENT_DIN:
        return BASELINE(din)(LENT, e.levels);
    case COWRIESTEP_EVENT_LATCH:
        return BASELINE(latch)(LENT, e.levels);
    case COWRIESTEP_EVENT_PORT_A_PINS:
        return BASELINE(port_a_pins)(LENT, e.value);
    case COWRIESTEP_EVENT_PORT_B_PINS:
        return BASELINE(port_b_pins)(LENT, e.value);
    case COWRIESTEP_EVENT_PORT_C_PINS:
        return BASELINE(port_c_pins)(LENT, e.value);
    case COWRIESTEP_EVENT_TICK:
        return BASELINE(tick)(LENT);
    case COWRIESTEP_EVENT_TRANSFER_END:
        return BASELINE(transfer_end)(LENT);
    default:
        REFUSE_UNFIT(b, memory, memory_length, eeprom_length);
        return REFUSED(COWRIESTEP_REFUSED_OFFSET);
    }
}
