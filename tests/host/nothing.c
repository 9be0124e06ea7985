/*
 * A word read that finds nothing, and the collector that is told so. What is expected is worked out by hand from request M-100.
 */
#define HOST "nothing.c"
#include "guest.h"

/* ---- a word read says which it was: a sample, or nothing there */
_Static_assert(COWRIESTEP_NOTHING == 4, "the kind of a word read that finds nothing");
_Static_assert(COWRIESTEP_BROUGHT_NOTHING == 2, "the kind of an access that brought nothing");
_Static_assert(COWRIESTEP_REFUSED_NOTHING == 20, "the refusal of nothing where a sample is due");

/* Nothing is held: the word read says so and changes nothing, the byte reads are FF, and a word read elsewhere is 3. */
static void empty_memory(void) {
    static const uint16_t no_samples[COWRIESTEP_MEMORY_LENGTH];
    static const uint8_t no_bytes[COWRIESTEP_EEPROM_LENGTH];
    const struct dmm32_board kept = board;
    uint32_t answer = dmm32_read_word(LENT, 0);
    struct dmm32_bus_answer brought = COWRIESTEP_BROUGHT(answer);
    answers("an empty memory", answer, EMPTY);
    expect(HOST, "the kind of an empty memory's answer", COWRIESTEP_KIND(answer), COWRIESTEP_NOTHING);
    expect(HOST, "its number", COWRIESTEP_NUMBER(answer), 65535);
    expect(HOST, "its refusal", COWRIESTEP_REFUSAL(answer), 0);
    expect(HOST, "what an empty memory brought", brought.kind, COWRIESTEP_BROUGHT_NOTHING);
    expect(HOST, "the refusal that it brought", brought.refusal, 0);
    answers("the low byte of an empty memory", dmm32_read_byte(LENT, 0), 0x200000FF);
    answers("its high byte", dmm32_read_byte(LENT, 1), 0x200000FF);
    answers("an empty memory again", dmm32_read_word(LENT, 0), EMPTY);
    answers("a word read at 1 of an empty memory", dmm32_read_word(LENT, 1), REFUSED(3));
    answers("a word read at 16 of an empty memory", dmm32_read_word(LENT, 16), REFUSED(3));
    expect(HOST, "the record after reads of an empty memory", memcmp(&board, &kept, sizeof board) != 0, 0);
    expect(HOST, "the sample memory after them", memcmp(memory, no_samples, sizeof memory) != 0, 0);
    expect(HOST, "the EEPROM after them", memcmp(eeprom, no_bytes, sizeof eeprom) != 0, 0);
}

/* The code -1 is FFFF, and a sample: three are read one by one, and then nothing is there. */
static void minus_one(void) {
    fresh();
    empty_memory();
    for (unsigned i = 0; i < 3; i++) {
        answers("a trigger", dmm32_write_byte(LENT, 0, 0), 0);
        if (i == 0) answers("a word read while the first sample is converted", dmm32_read_word(LENT, 0), EMPTY);
        answers("an end with -1", dmm32_conversion_end(LENT, -1), 0);
    }
    for (unsigned i = 0; i < 3; i++) {
        uint32_t answer = dmm32_read_word(LENT, 0);
        struct dmm32_bus_answer brought = COWRIESTEP_BROUGHT(answer);
        answers("a sample of -1", answer, 0x4000FFFF);
        expect(HOST, "its kind", COWRIESTEP_KIND(answer), COWRIESTEP_WORD);
        expect(HOST, "what a sample of -1 brought", brought.kind, COWRIESTEP_BROUGHT_NUMBER);
        expect(HOST, "the number that it brought", brought.number, 65535);
        expect(HOST, "held after it", board.fifo.held, 2 - i);
        expect(HOST, "the place of the oldest after it", board.fifo.place, i < 2 ? i + 1 : 0);
    }
    empty_memory();
}

/* What came of the collector's access is nothing: 20, and record, board and memory stay. Then the same word read is named again. */
static void overtaken(uint8_t phase, uint16_t left) {
    const struct dmm32_board kept = board;
    const struct dmm32_taken want = { collector, 1, COWRIESTEP_HANDED_REFUSED, 20, { 0, 0 } };
    for (int twice = 0; twice < 2; twice++) {
        struct dmm32_taken t = turned ? dmm32_turn(LENT, collector) : by_hand();
        expect(HOST, "a take that finds nothing", memcmp(&t, &want, sizeof t) != 0, 0);
        expect(HOST, "the board after it", memcmp(&board, &kept, sizeof board) != 0, 0);
        collector = t.collector;
        struct dmm32_access x = dmm32_collector_access(collector);
        expect(HOST, "the access after it", x.kind == COWRIESTEP_ACCESS_READ_WORD && x.offset == 0 && x.refusal == 0, 1);
        expect(HOST, "the phase after it", collector.phase, phase);
        if (phase == 9) expect(HOST, "the reads left after it", collector.left, left);
    }
}

/*
 * A collector that is not alone: the guest takes a sample after the look, by hand and by dmm32_turn. So a take finds nothing until the next sample comes, which
 * the collector hands over by its own count of channels; and of a drain the last read finds nothing.
 */
static void not_alone(void) {
    for (turned = 0; turned < 2; turned++) {
        fresh();
        program_clock();
        collector = dmm32_collector_start((struct dmm32_settings){ 3, 5, COWRIESTEP_JUMPERS_A, 8, 1, 10 }).collector;
        start();
        convert(-1, 3);
        look();
        answers("the guest's word read", dmm32_read_word(LENT, 0), 0x4000FFFF);
        overtaken(8, 0);
        convert(-1, 4);
        sample(COWRIESTEP_HANDED_SAMPLE, 3, -1);
        for (unsigned i = 0; i < 512; i++) convert((int16_t)(i - 256), (uint8_t)(3 + (i + 2) % 3));
        look();
        answers("the guest's word read", dmm32_read_word(LENT, 0), 0x4000FF00);
        for (unsigned i = 0; i < 511; i++) sample(COWRIESTEP_HANDED_SAMPLE, (uint8_t)(3 + (i + 1) % 3), (int16_t)(i - 255));
        overtaken(9, 1);
        convert(-1, 4);
        sample(COWRIESTEP_HANDED_LAST_SAMPLE, 5, -1);
        expect(HOST, "the phase after a gap", collector.phase, 0);
    }
}

/* ---- the collector told nothing: whatever number and refusal stand beside it, what is answered is this, byte by byte */
static void told_nothing(const char *what, struct dmm32_collector c, struct dmm32_taken want) {
    static const uint16_t numbers[] = { 0, 0x20, 0x80, 256, 65535 };
    static const uint8_t refusals[] = { 0, 1, 17, 20, 255 };
    for (unsigned i = 0; i < 25; i++) {
        struct dmm32_taken t = dmm32_collector_take(c, (struct dmm32_bus_answer){ numbers[i / 5], COWRIESTEP_BROUGHT_NOTHING, refusals[i % 5] });
        expect(HOST, what, memcmp(&t, &want, sizeof t) != 0, 0);
    }
}

/* The record is kept, so the same access is named, and a number goes on from there as if nothing had been told. */
static void nothing_refused(const char *what, struct dmm32_collector c, uint8_t number) {
    const struct dmm32_bus_answer nothing = { 65535, COWRIESTEP_BROUGHT_NOTHING, 0 }, byte = { 0xA5, COWRIESTEP_BROUGHT_NUMBER, 0 };
    told_nothing(what, c, (struct dmm32_taken){ c, c.polls, COWRIESTEP_HANDED_REFUSED, number, { 0, 0 } });
    struct dmm32_collector after = dmm32_collector_take(c, nothing).collector;
    struct dmm32_access named = dmm32_collector_access(c), again = dmm32_collector_access(after);
    struct dmm32_taken without = dmm32_collector_take(c, byte), with = dmm32_collector_take(after, byte);
    expect(HOST, "the access named again", memcmp(&named, &again, sizeof named) != 0, 0);
    expect(HOST, "what a number after it does", memcmp(&without, &with, sizeof with) != 0, 0);
}

/* After a write the next phase, as with a number; the start ends with the last of its writes. */
static void nothing_after_a_write(struct dmm32_collector c) {
    struct dmm32_taken want = { c, c.polls, c.phase == 6 ? COWRIESTEP_HANDED_START_END : COWRIESTEP_HANDED_NOTHING, 0, { 0, 0 } };
    want.collector.phase++;
    told_nothing("nothing after a write", c, want);
    struct dmm32_taken t = dmm32_collector_take(c, (struct dmm32_bus_answer){ 65535, COWRIESTEP_BROUGHT_NUMBER, 0 });
    expect(HOST, "a number after a write", memcmp(&t, &want, sizeof t) != 0, 0);
}

static void nothing_told(void) {
    const struct dmm32_settings s = { 8, 15, COWRIESTEP_JUMPERS_C, 0, 0, 3 };
    const struct dmm32_collector takes[] = { { s, 8, 8, 1, 0 }, { s, 8, 15, 3, 65535 }, { s, 8, 9, 0, 7 } };
    const struct dmm32_collector drains[] = { { s, 9, 8, 1, 512 }, { s, 9, 15, 3, 1 }, { s, 9, 9, 0, 257 }, { s, 9, 12, 2, 2 } };
    const struct dmm32_collector bytes[] = { { s, 1, 8, 0, 0 }, { s, 1, 9, 1, 5 }, { s, 1, 8, 2, 0 }, { s, 7, 8, 1, 0 }, { s, 7, 15, 3, 65535 } };
    const struct dmm32_collector stuck[] = { { s, 10, 8, 3, 0 }, { s, 10, 15, 1, 5 } };
    const struct dmm32_collector unfit[] = { { .phase = 0 }, { s, 0, 8, 1, 0 }, { s, 1, 8, 3, 0 }, { s, 3, 16, 1, 0 }, { s, 7, 7, 1, 0 }, { s, 8, 7, 1, 0 },
        { s, 8, 8, 4, 0 }, { s, 9, 9, 1, 0 }, { s, 9, 9, 1, 513 }, { s, 10, 7, 3, 0 }, { s, 11, 8, 3, 0 }, { s, 255, 8, 0, 1 } };
#define EACH(records, what, number) for (unsigned i = 0; i < sizeof records / sizeof *records; i++) nothing_refused(what, records[i], number)
    EACH(takes, "nothing in a take", 20);
    EACH(drains, "nothing in a drain", 20);
    EACH(bytes, "nothing where a byte is due", 17);
    EACH(stuck, "nothing to a stuck collector", 15);
    EACH(unfit, "nothing to an unfit record", 1);
#undef EACH
    nothing_after_a_write((struct dmm32_collector){ s, 0, 8, 0, 0 });
    for (uint8_t phase = 2; phase < 7; phase++) nothing_after_a_write((struct dmm32_collector){ s, phase, 9, 2, 5 });
}

int main(void) {
    minus_one();
    not_alone();
    nothing_told();
    printf(HOST ": %ld answers compared, %ld differ\n", compared, differ);
    return differ != 0;
}
