/*
 * Each flag of the record by its name, in boards that are working otherwise. With 0 or 1 the board works; with any other number it does not, every event
 * is refused by 1, and record and memories stay as they were, compared as bytes.
 */
#include "record.h"

struct lent {
    struct dmm32_board board;
    uint16_t memory[COWRIESTEP_MEMORY_LENGTH];
    uint8_t eeprom[COWRIESTEP_EEPROM_LENGTH];
};

#define LENT &l->board, l->memory, COWRIESTEP_MEMORY_LENGTH, l->eeprom, COWRIESTEP_EEPROM_LENGTH
#define REFUSED_RECORD UINT32_C(0x61000000)

enum { EVENTS = 11 };

/* every event, with numbers that are refused by another number where there is one */
static uint32_t event(struct lent *l, int which, uint32_t number) {
    switch (which) {
    case 0: return dmm32_write_byte(LENT, number, 0x20);
    case 1: return dmm32_read_byte(LENT, number);
    case 2: return dmm32_read_word(LENT, number);
    case 3: return dmm32_conversion_end(LENT, -7);
    case 4: return dmm32_din(LENT, number);
    case 5: return dmm32_latch(LENT, number);
    case 6: return dmm32_port_a_pins(LENT, 0x5A);
    case 7: return dmm32_port_b_pins(LENT, 0x5A);
    case 8: return dmm32_port_c_pins(LENT, 0x5A);
    case 9: return dmm32_tick(LENT);
    default: return dmm32_transfer_end(LENT);
    }
}

/* a board whose flag `name` is neither 0 nor 1 */
static void refused(const char *name, const struct lent *given) {
    static const uint32_t numbers[] = { 0, 8, 16, 256 };
    static struct lent l;
    expect("flags.c", name, dmm32_is_working(given->board, given->memory, COWRIESTEP_MEMORY_LENGTH), 0);
    for (int which = 0; which < EVENTS; which++)
        for (unsigned i = 0; i < sizeof numbers / sizeof *numbers; i++) {
            l = *given;
            expect("flags.c", name, event(&l, which, numbers[i]), REFUSED_RECORD);
            expect("flags.c", name, memcmp(&l, given, sizeof l) != 0, 0);
        }
}

/* a working board; `any` where each of its flags may be 0 as well as 1 */
static void every_flag(struct lent *given, int any) {
    static const uint16_t numbers[] = { 2, 3, 16, 128, 254, 255, 256, 257, 0x8000, 0xFF01, 65535 };
    expect("flags.c", "a working board", dmm32_is_working(given->board, given->memory, COWRIESTEP_MEMORY_LENGTH), 1);
    const struct dmm32_board kept = given->board;
#define EACH(flag)                                                                                            \
    for (unsigned i = 0; i < sizeof numbers / sizeof *numbers; i++)                                           \
        if (sizeof kept.flag == 2 || numbers[i] <= 255) {                                                     \
            given->board.flag = numbers[i];                                                                   \
            refused(#flag, given);                                                                            \
            given->board = kept;                                                                              \
        }                                                                                                     \
    for (uint8_t level = 0; any && level <= 1; level++) {                                                     \
        given->board.flag = level;                                                                            \
        expect("flags.c", #flag, dmm32_is_working(given->board, given->memory, COWRIESTEP_MEMORY_LENGTH), 1); \
        given->board = kept;                                                                                  \
    }
    BOARD_FLAGS(EACH)
#undef EACH
}

/* a board in use: 512 held from place 300 on and OVF, a conversion, a running transfer, all counters programmed and counting */
static void used(struct lent *l) {
    static const uint8_t writes[][2] = { { 9, 0xE0 }, { 15, 0x34 }, { 12, 9 }, { 12, 0 }, { 15, 0x50 }, { 13, 5 }, { 15, 0xB0 }, { 14, 7 }, { 0, 0 }, { 8, 3 },
        { 14, 0x18 } };
    for (unsigned i = 0; i < sizeof writes / sizeof *writes; i++)
        expect("flags.c", "a write", dmm32_write_byte(LENT, writes[i][0], writes[i][1]), 0);
    for (unsigned i = 0; i < COWRIESTEP_MEMORY_LENGTH; i++) l->memory[i] = (uint16_t)(0xFFFF - i);
    l->board.fifo = (struct dmm32_fifo){ .held = COWRIESTEP_MEMORY_LENGTH, .place = 300, .ovf = 1 };
    expect("flags.c", "a tick", dmm32_tick(LENT), 0);
}

#define COUNT(flag) +1
_Static_assert(0 BOARD_FLAGS(COUNT) == 38, "the flags of a board");

int main(void) {
    static struct lent l;
    l.board = dmm32_fresh(COWRIESTEP_JUMPERS_A, 0);
    every_flag(&l, 0);
    used(&l);
    every_flag(&l, 1);
    printf("flags.c: %ld answers and records compared, %ld differ\n", compared, differ);
    return differ != 0;
}
