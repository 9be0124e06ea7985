/*
 * The parts of the ten minutes that minutes.c keeps, and when in them something must come: worked out by arithmetic from the data sheet.
 */
#include "time.h"

#define BOARD_TIME UINT64_C(6000000000)
#define NEVER UINT64_MAX

enum { ADINTE = 128, TINTE = 32, CLKEN_CLKSEL = 3, FIFOEN_SCANEN = 12, CHANNELS = 4 };

/* One part of the time: how long, counts of counters 1 and 2 in mode 2, count and mode of counter 0 (NONE: it is not programmed), Base + 10, TINTE, first channel. */
enum { NONE = 255 };
static const struct part {
    uint64_t ticks;
    uint32_t count1, count2, count0;
    uint8_t mode0, counting, tinte, low;
} parts[] = {
    { UINT64_C(1300000021), 10007, 101, 0, NONE, 0, 0, 4 },
    { UINT64_C(600000007), 997, 1009, 37, 2, FREQ0, TINTE, 0 },
    { UINT64_C(1200000041), 101, 23, 50021, 2, FREQ12, TINTE, 28 },
    { UINT64_C(100000003), 3, 7, 2, 2, FREQ12 | FREQ0, TINTE, 9 },
    { UINT64_C(700000009), 65536, 3, 60000, 0, FREQ0, 0, 16 },
    { UINT64_C(300000001), 211, 4099, 65536, 2, 0, TINTE, 12 },
    { 0, 9973, 103, 65521, 0, GT12EN | FREQ0, 0, 1 },       /* what is left */
};

static struct lent host;
static struct dmm32_collector collector;
static const struct part *part;
static uint64_t now;                                        /* ticks that the board has done */
static uint64_t began0, began12;                            /* when the count of counter 0 was written, and those of 1 and 2 or when their gate rose */
static uint64_t frozen;                                     /* pulses of counter 1 that were counted when its gate fell; NEVER while the gate is high */
static uint64_t end_at, next_at, loaded_at;                 /* when the conversion ends, when ticks_until says that a tick acts, when DACBUSY began */
static uint64_t paced, scans, tints, begun, handed;         /* scans since began12, scans and TINTs of this part, conversions begun and samples handed over in it */

/* "Mode 2": the first CLK loads the count, each further one decrements it, OUT falls where it comes to 1 and the CLK after that loads it again: so OUT falls with
   each pulse whose number is a multiple of the count. The dividers run freely from the fresh board on, and pulse when the time is a multiple of 100 or 1,000. */
static uint64_t divider0(void) { return part->counting & FREQ0 ? 1000 : 1; }
static uint64_t divider12(void) { return part->counting & FREQ12 ? 100 : 1; }
static uint64_t pulses0(void) { return now / divider0() - began0 / divider0(); }
static uint64_t pulses1(void) { return frozen != NEVER ? frozen : now / divider12() - began12 / divider12(); }
static uint64_t pulses2(void) { return pulses1() / part->count1; }
static uint64_t scan_pulses(void) { return (uint64_t)part->count1 * part->count2; }
static uint64_t scan_at(void) { return frozen != NEVER ? NEVER : (began12 / divider12() + scan_pulses() * (paced + 1)) * divider12(); }
static uint64_t tint_at(void) { return part->tinte ? (began0 / divider0() + part->count0 * (tints + 1)) * divider0() : NEVER; }
