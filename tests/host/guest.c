/*
 * A guest whose conversions are clocked by counters 1 and 2, and the collector that empties the sample memory over an overflow: by hand on the run before
 * the overflow's gap, by dmm32_turn on the run after it. What is expected is worked out by hand from the specification; then every refusal is asked for once.
 */
#define HOST "guest.c"
#include "guest.h"

/* Channels 3 to 5, five conversions: 3, 4, 5, 3, 4, and 5 is selected. */
static void five(void) {
    static const int16_t codes[5] = { 100, -200, 300, -400, 32767 };
    static const uint8_t channels[5] = { 3, 4, 5, 3, 4 };
    for (unsigned i = 0; i < 5; i++) expect(HOST, "ticks to a conversion", convert(codes[i], channels[i]), 6);
    answers("Base + 8", dmm32_read_byte(LENT, 8), 0x20000065);
    answers("Base + 7", dmm32_read_byte(LENT, 7), 0x20000000);
    for (unsigned i = 0; i < 5; i++) {
        look();
        sample(COWRIESTEP_HANDED_SAMPLE, channels[i], codes[i]);
    }
    answers("Base + 7", dmm32_read_byte(LENT, 7), 0x20000080);
    look();
}

/* 513 conversions from channel 5 on: the last is lost, 512 are drained, and a gap is marked with the last of these. */
static void overflow(void) {
    for (unsigned i = 0; i < 513; i++) convert((int16_t)(i * 127 - 32768), (uint8_t)(3 + (i + 2) % 3));
    answers("Base + 7", dmm32_read_byte(LENT, 7), 0x20000070);
    look();
    for (unsigned i = 0; i < 512; i++)
        sample(i < 511 ? COWRIESTEP_HANDED_SAMPLE : COWRIESTEP_HANDED_LAST_SAMPLE, (uint8_t)(3 + (i + 2) % 3), (int16_t)(i * 127 - 32768));
    expect(HOST, "held after the drain", board.fifo.held, 0);
    expect(HOST, "the place of the oldest after the drain", board.fifo.place, 0);
    expect(HOST, "polls of the next start", collector.polls, 0);
    turned = 1;
    start();
    five();
}

/* ---- the refusals 1 to 10 */
static void board_refusals(void) {
    answers("2", dmm32_tick(&board, memory, 511, eeprom, 128), REFUSED(2));
    answers("2", dmm32_tick(&board, memory, 512, eeprom, 0), REFUSED(2));
    answers("2 of fresh stores", dmm32_fresh_stores(memory, 512, eeprom, 127), REFUSED(2));
    struct dmm32_board kept = board;
    board.fifo.held = 513;
    answers("1", dmm32_din(LENT, 16), REFUSED(1));
    expect(HOST, "working", dmm32_is_working(board, memory, 512), 0);
    board = kept;
    board.fifo.place = 512;
    answers("1 with the oldest at place 512", dmm32_din(LENT, 16), REFUSED(1));
    expect(HOST, "working", dmm32_is_working(board, memory, 512), 0);
    board = dmm32_fresh(COWRIESTEP_JUMPERS_A, 0);
    board.fifo.place = 5;
    answers("1 with none held and place 5", dmm32_din(LENT, 16), REFUSED(1));
    expect(HOST, "working", dmm32_is_working(board, memory, 512), 0);
    board = dmm32_fresh(4, 0);
    answers("1 with jumpers 4", dmm32_tick(LENT), REFUSED(1));
    board = kept;
    expect(HOST, "working", dmm32_is_working(board, memory, 512), 1);
    answers("3", dmm32_write_byte(LENT, 16, 0), REFUSED(3));
    answers("3", dmm32_read_byte(LENT, 255), REFUSED(3));
    answers("3", dmm32_read_word(LENT, 1), REFUSED(3));
    answers("4", dmm32_conversion_end(LENT, 0), REFUSED(4));
    answers("5", dmm32_din(LENT, 16), REFUSED(5));
    answers("10", dmm32_transfer_end(LENT), REFUSED(10));
    answers("a load", dmm32_write_byte(LENT, 5, 0), 0);
    answers("6", dmm32_write_byte(LENT, 4, 0), REFUSED(6));
    answers("page 2", dmm32_write_byte(LENT, 8, 2), 0);
    answers("7", dmm32_read_byte(LENT, 15), REFUSED(7));
    answers("page 3", dmm32_write_byte(LENT, 8, 3), 0);
    answers("the revision", dmm32_read_byte(LENT, 15), 0x20000000 + 34);
    answers("8", dmm32_write_byte(LENT, 14, 0x80), REFUSED(8));
    answers("9", dmm32_write_byte(LENT, 14, 0xA8), REFUSED(9));
    answers("an empty memory", dmm32_read_word(LENT, 0), EMPTY);
}

/* ---- the refusals 11 to 15, 17 and 1 of the collector */
static void refused_start(struct dmm32_settings s, uint8_t number) {
    struct dmm32_start r = dmm32_collector_start(s), zeros = { .refusal = number };
    expect(HOST, "the refusal of a start", r.refusal, number);
    expect(HOST, "the bytes of a refused start", memcmp(&r, &zeros, sizeof r) != 0, 0);
    expect(HOST, "fit", dmm32_collector_is_fit(r.collector), 0);
    expect(HOST, "the access of no collector", dmm32_collector_access(r.collector).refusal, COWRIESTEP_REFUSED_RECORD);
}

static void refused_take(uint8_t phase, uint16_t answer, uint8_t number, uint8_t after) {
    collector.phase = phase;
    struct dmm32_taken t = dmm32_collector_take(collector, (struct dmm32_bus_answer){ answer, COWRIESTEP_BROUGHT_NUMBER, 0 });
    expect(HOST, "handed", t.handed, COWRIESTEP_HANDED_REFUSED);
    expect(HOST, "the refusal of an answer", t.refusal, number);
    expect(HOST, "the phase after it", t.collector.phase, after);
}

/* Fit: settings that would start, next from low to high, polls at most limit, below it in phase 1 and 0 in phase 0, left 1 to 512 in phase 9, a phase to 10. */
static void fit(void) {
    const struct dmm32_settings s = { 8, 15, COWRIESTEP_JUMPERS_C, 0, 0, 3 };
    const struct { struct dmm32_collector c; int fit; } records[] = {
        { { s, 0, 8, 0, 0 }, 1 }, { { s, 0, 15, 0, 0 }, 1 }, { { s, 0, 7, 0, 0 }, 0 }, { { s, 0, 16, 0, 0 }, 0 }, { { s, 0, 8, 1, 0 }, 0 },
        { { s, 1, 8, 0, 0 }, 1 }, { { s, 1, 8, 2, 0 }, 1 }, { { s, 1, 8, 3, 0 }, 0 }, { { s, 2, 8, 3, 0 }, 1 }, { { s, 2, 8, 4, 0 }, 0 },
        { { s, 8, 9, 259, 0 }, 0 }, { { s, 8, 9, 1, 65535 }, 1 }, { { s, 9, 9, 1, 1 }, 1 }, { { s, 9, 9, 1, 512 }, 1 }, { { s, 9, 9, 1, 0 }, 0 },
        { { s, 9, 9, 1, 513 }, 0 }, { { s, 10, 8, 3, 0 }, 1 }, { { s, 10, 7, 3, 0 }, 0 }, { { s, 10, 8, 4, 0 }, 0 }, { { s, 11, 8, 3, 0 }, 0 }, { { s, 255, 8, 0, 1 }, 0 },
        { { { 8, 15, 2, 0, 65535, 1000 }, 7, 8, 1000, 0 }, 1 }, { { { 8, 15, 2, 0, 0, 1001 }, 7, 8, 0, 0 }, 0 }, { { { 8, 15, 2, 0, 0, 0 }, 7, 8, 0, 0 }, 0 },
        { { { 15, 8, 2, 0, 0, 3 }, 7, 8, 0, 0 }, 0 }, { { { 8, 16, 2, 0, 0, 3 }, 7, 8, 0, 0 }, 0 }, { { { 8, 15, 4, 0, 0, 3 }, 7, 8, 0, 0 }, 0 },
        { { { 8, 15, 2, 4, 0, 3 }, 7, 8, 0, 0 }, 0 }, { { { 8, 15, 2, 16, 0, 3 }, 7, 8, 0, 0 }, 0 } };
    for (unsigned i = 0; i < sizeof records / sizeof *records; i++) {
        expect(HOST, "whether a record is fit", dmm32_collector_is_fit(records[i].c), records[i].fit);
        expect(HOST, "the access of an unfit record", dmm32_collector_access(records[i].c).refusal == 1, !records[i].fit);
    }
}

static void collector_refusals(void) {
    refused_start((struct dmm32_settings){ 0, 7, 0, 0, 0, 0 }, 14);
    refused_start((struct dmm32_settings){ 0, 7, 0, 0, 0, 1001 }, 14);
    refused_start((struct dmm32_settings){ 5, 4, 0, 0, 0, 1 }, 11);
    refused_start((struct dmm32_settings){ 15, 24, COWRIESTEP_JUMPERS_C, 0, 0, 1 }, 12);
    refused_start((struct dmm32_settings){ 0, 7, 0, 4, 0, 1 }, 13);
    collector = dmm32_collector_start((struct dmm32_settings){ 8, 15, COWRIESTEP_JUMPERS_C, 0, 0, 1 }).collector;
    refused_take(11, 0, 1, 11);
    refused_take(1, 256, 17, 1);
    refused_take(7, 256, 17, 7);
    refused_take(1, 0x80, 15, 10);
    refused_take(10, 0, 15, 10);
    expect(HOST, "the access of a stuck collector", dmm32_collector_access(collector).refusal, 15);
}

/* Each of the 256 bytes of a look has an outcome: EF (80) looks again, FF (20) without it drains 512, neither takes one. */
static void looks(void) {
    collector = dmm32_collector_start((struct dmm32_settings){ 8, 15, COWRIESTEP_JUMPERS_C, 0, 0, 1 }).collector;
    collector.phase = 7;
    for (unsigned status = 0; status < 256; status++) {
        struct dmm32_taken t = dmm32_collector_take(collector, (struct dmm32_bus_answer){ (uint16_t)status, COWRIESTEP_BROUGHT_NUMBER, 0 });
        unsigned empty = status / 128, full = status / 32 % 2;
        expect(HOST, "handed over by a look", t.handed, COWRIESTEP_HANDED_NOTHING);
        expect(HOST, "the phase after a look", t.collector.phase, empty ? 7 : full ? 9 : 8);
        expect(HOST, "the reads left after a look", t.collector.left, !empty && full ? 512 : 0);
    }
}

static void scans(void) {
    static const int16_t samples[10];
    expect(HOST, "whole scans of 3", (int64_t)dmm32_whole_scans(samples, 10, 3, 5), 9);
    expect(HOST, "whole scans of 32", (int64_t)dmm32_whole_scans(samples, 10, 0, 31), 0);
    expect(HOST, "whole scans of a bad range", (int64_t)dmm32_whole_scans(samples, 10, 5, 3), 0);
    expect(HOST, "whole scans of a bad range", (int64_t)dmm32_whole_scans(samples, 10, 0, 32), 0);
}

int main(void) {
    fresh();
    program_clock();
    struct dmm32_start s = dmm32_collector_start((struct dmm32_settings){ .low = 3, .high = 5, .jumpers = COWRIESTEP_JUMPERS_A, .range = 8, .clock = 1, .limit = 10 });
    expect(HOST, "the refusal of a start", s.refusal, 0);
    collector = s.collector;
    start();
    five();
    overflow();
    board_refusals();
    collector_refusals();
    fit();
    looks();
    scans();
    printf(HOST ": %ld answers compared, %ld differ\n", compared, differ);
    return differ != 0;
}
