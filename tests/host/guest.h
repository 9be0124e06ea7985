/*
 * A small hypervisor, for the hosts that name themselves by HOST: a board, a guest that programs counters 1 and 2 as the clock of conversions, and the
 * collector that empties the sample memory, by hand or by dmm32_turn.
 */
#include "record.h"

static uint16_t memory[COWRIESTEP_MEMORY_LENGTH];
static uint8_t eeprom[COWRIESTEP_EEPROM_LENGTH];
static struct dmm32_board board;
static struct dmm32_collector collector;

#define LENT COWRIESTEP_LENT(&board, memory, eeprom)
#define REFUSED(n) (UINT32_C(0x60000000) + (n) * UINT32_C(0x1000000))
#define EMPTY UINT32_C(0x8000FFFF)          /* kind 4, and FF in both bytes */

static void answers(const char *what, uint32_t answer, uint32_t want) { expect(HOST, what, answer, want); }

static void fresh(void) {
    board = dmm32_fresh(COWRIESTEP_JUMPERS_A, 0);
    answers("fresh stores", dmm32_fresh_stores(memory, COWRIESTEP_MEMORY_LENGTH, eeprom, COWRIESTEP_EEPROM_LENGTH), 0);
}

/* ---- the guest */

/* Mode 2: OUT goes low on every count-th clock. Counter 1, count 3, is clocked by each tick; counter 2, count 2, by each falling OUT1. So OUT2, which
   starts a conversion, falls on ticks 6, 12, 18, .. after these writes. */
static void program_clock(void) {
    static const uint8_t bytes[][2] = { { 8, 0x00 }, { 15, 0x74 }, { 13, 3 }, { 13, 0 }, { 15, 0xB4 }, { 14, 2 }, { 14, 0 } };
    for (unsigned i = 0; i < sizeof bytes / sizeof *bytes; i++) answers("a write of the guest", dmm32_write_byte(LENT, bytes[i][0], bytes[i][1]), 0);
}

/* ---- the hypervisor: the access that the collector names, its answer, and what is handed over; by hand, or by dmm32_turn where `turned` */
static int turned;

static struct dmm32_taken by_hand(void) {
    struct dmm32_access x = dmm32_collector_access(collector);
    uint32_t answer = 0;
    if (x.kind == COWRIESTEP_ACCESS_WRITE_BYTE) answer = dmm32_write_byte(LENT, x.offset, x.value);
    if (x.kind == COWRIESTEP_ACCESS_READ_BYTE) answer = dmm32_read_byte(LENT, x.offset);
    if (x.kind == COWRIESTEP_ACCESS_READ_WORD) answer = dmm32_read_word(LENT, x.offset);
    struct dmm32_bus_answer brought = COWRIESTEP_BROUGHT(answer);
    return dmm32_collector_take(collector, brought);
}

static struct dmm32_taken turn(void) {
    struct dmm32_taken t = turned ? dmm32_turn(LENT, collector) : by_hand();
    expect(HOST, "a refused access", t.refusal, 0);
    collector = t.collector;
    return t;
}

static void start(void) {
    static const uint8_t wanted[7][3] = { { COWRIESTEP_ACCESS_WRITE_BYTE, 9, 0 }, { COWRIESTEP_ACCESS_READ_BYTE, 8, 0 }, { COWRIESTEP_ACCESS_WRITE_BYTE, 11, 8 },
        { COWRIESTEP_ACCESS_WRITE_BYTE, 7, 2 }, { COWRIESTEP_ACCESS_WRITE_BYTE, 2, 3 }, { COWRIESTEP_ACCESS_WRITE_BYTE, 3, 5 }, { COWRIESTEP_ACCESS_WRITE_BYTE, 9, 3 } };
    for (unsigned i = 0; i < 7; i++) {
        struct dmm32_access x = dmm32_collector_access(collector);
        expect(HOST, "the kind of access", x.kind, wanted[i][0]);
        expect(HOST, "the access's offset", x.offset, wanted[i][1]);
        expect(HOST, "the access's value", x.value, wanted[i][2]);
        expect(HOST, "handed over by a start", turn().handed, i < 6 ? COWRIESTEP_HANDED_NOTHING : COWRIESTEP_HANDED_START_END);
    }
    expect(HOST, "polls", collector.polls, 1);
}

/* ticks until the next conversion begins, and its end: the channel, and after how many ticks */
static unsigned convert(int16_t code, uint8_t channel) {
    unsigned ticks = 0;
    while (!board.converter.converting && ticks < 100) {
        answers("a tick", dmm32_tick(LENT), 0);
        ticks++;
    }
    expect(HOST, "the channel in conversion", board.converter.channel, channel);
    answers("an end", dmm32_conversion_end(LENT, code), 0);
    return ticks;
}

static void sample(uint8_t handed, uint8_t channel, int16_t code) {
    struct dmm32_taken t = turn();
    expect(HOST, "what is handed over", t.handed, handed);
    expect(HOST, "the sample's channel", t.sample.channel, channel);
    expect(HOST, "the sample's code", t.sample.code, code);
    expect(HOST, "the polls reported", t.polls, 1);
}

static void look(void) { expect(HOST, "handed over by a look", turn().handed, COWRIESTEP_HANDED_NOTHING); }
