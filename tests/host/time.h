/* For the C hosts that keep time: a board that is lent, and what is told of a difference. */
#ifndef TIME_H
#define TIME_H

#include "record.h"

struct lent {
    struct dmm32_board board;
    uint16_t memory[COWRIESTEP_MEMORY_LENGTH + 8];         /* room for lengths that are too great */
    uint8_t eeprom[COWRIESTEP_EEPROM_LENGTH + 8];
};

#define STORES(l) (l)->memory, COWRIESTEP_MEMORY_LENGTH, (l)->eeprom, COWRIESTEP_EEPROM_LENGTH
#define LENT(l) &(l)->board, STORES(l)
#define REFUSED(n) (UINT32_C(0x60000000) + (n) * UINT32_C(0x1000000))
#define ALL_TICKS UINT32_C(0xFFFFFFFF)

/* bits of Base + 10, and of DIN3-0 */
enum { GT12EN = 1, FREQ0 = 64, FREQ12 = 128, DIN2 = 4 };

static inline void same(const char *what, int64_t got, int64_t want) { expect("time", what, got, want); }

static inline void until_is(const struct lent *l, uint32_t most, uint32_t want) {
    same("ticks until", dmm32_ticks_until(l->board, STORES(l), most), want);
}

/* what has to occur; a kind that never did is a difference */
static inline void occurred(const char *what, long times) {
    printf("%s %ld", what, times);
    if (times == 0) differ++, printf(" (it has to occur)");
}

/* splitmix64, with a fixed seed */
static inline uint32_t below(uint32_t n) {
    static uint64_t state = 8254;
    uint64_t z = state += UINT64_C(0x9E3779B97F4A7C15);
    z = (z ^ z >> 30) * UINT64_C(0xBF58476D1CE4E5B9);
    z = (z ^ z >> 27) * UINT64_C(0x94D049BB133111EB);
    return (uint32_t)((z ^ z >> 31) % n);
}

#endif
