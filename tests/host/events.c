/*
 * Any event as one record of numbers: dmm32_step beside the function of each kind, over random boards, damaged ones and wrong lengths; numbers that are no
 * kind's; and dmm32_note beside what the event does, from the board before it and after it.
 */
#include "tallies.h"

enum { ROUNDS = 12000 };

static long begun_by[KINDS + 1], ended, abandoned, reads, lost, cleared, refusals[32], damaged, mid_scan, full_cleared;

static void is(const char *what, int64_t got, int64_t want) { expect("events.c", what, got, want); }

/* offsets and bytes that have to do with samples are often drawn, and so are wide ones */
static struct dmm32_event random_event(uint8_t kind, const struct dmm32_board *b) {
    static const uint8_t offsets[] = { 0, 0, 1, 7, 7, 8, 8, 12, 13, 13, 14, 14, 15, 15 };
    static const uint8_t words[] = { 0x10, 0x14, 0x50, 0x54, 0x90, 0x90, 0x94, 0xB0, 0x91, 0xC2 };
    uint32_t offset = below(3) ? offsets[below(sizeof offsets)] : below(4) ? below(16) : below(4) ? below(20) : below(UINT32_MAX);
    uint8_t byte = (uint8_t)below(256);
    if (offset == 7 && below(2)) byte = (uint8_t)(below(2) ? 0x02 : 0x0E);
    if (offset == 8 && below(2)) byte = (uint8_t)(0x08 << below(3) | below(4));
    if (offset == 15 && b->registers.page == 0 && below(2)) byte = words[below(sizeof words)];
    if (kind == COWRIESTEP_EVENT_READ_WORD && below(2)) offset = 0;
    if (kind == COWRIESTEP_EVENT_CONVERSION_END) offset = below(65536);
    if (kind == COWRIESTEP_EVENT_DIN) offset = below(8) ? below(2) ? b->pins.din & 7 : below(16) : below(UINT32_MAX);
    return event_of(kind, offset, byte);
}

/* What an event that was not refused adds, by the board before it and after it. */
static struct dmm32_tally added(struct dmm32_tally t, struct dmm32_event e, const struct dmm32_board *before, const struct dmm32_board *after) {
    int end = e.kind == COWRIESTEP_EVENT_CONVERSION_END, write = e.kind == COWRIESTEP_EVENT_WRITE_BYTE, held = before->fifo.held > 0;
    int reset = write && e.offset == 8 && (e.value & 0x30), fiforst = write && e.offset == 7 && (e.value & 0x02);
    int begins = after->converter.converting && (end || !before->converter.converting);
    int leaves = held && (e.kind == COWRIESTEP_EVENT_READ_WORD || (e.kind == COWRIESTEP_EVENT_READ_BYTE && e.offset == 1));
    int loses = end && before->fifo.held == COWRIESTEP_MEMORY_LENGTH;
    int abandons = reset && before->converter.converting;
    uint16_t clears = reset || fiforst ? before->fifo.held : 0;
    begun_by[e.kind] += begins, ended += end, abandoned += abandons, reads += leaves, lost += loses, cleared += clears > 0;
    mid_scan += abandons && before->converter.scanen && before->converter.channel != before->converter.high;
    full_cleared += clears == COWRIESTEP_MEMORY_LENGTH && before->fifo.ovf;
    return (struct dmm32_tally){ t.begun + begins, t.ended + end, t.abandoned + abandons, t.read + leaves, t.lost + loses, t.cleared + clears };
}

/* One event: by dmm32_step and by its own function the same, and the tally that dmm32_note has before it. The tally may have any numbers below 2^63. */
static void one(struct lent *l, size_t memory_length, size_t eeprom_length, struct dmm32_event e) {
    static struct lent before, stepped;
    before = stepped = *l;
    struct dmm32_tally was = { below(9), below(9), below(9), below(9), below(9) + (UINT64_C(5) << 40), below(9) + (UINT64_C(7) << 60) }, want = was;
    struct dmm32_tally noted = dmm32_note(was, l->board, l->memory, memory_length, l->eeprom, eeprom_length, e);
    is("what a note leaves", memcmp(l, &before, sizeof before) != 0, 0);
    uint32_t answer = called(l, memory_length, eeprom_length, e);
    uint32_t got = dmm32_step(&stepped.board, stepped.memory, memory_length, stepped.eeprom, eeprom_length, e);
    is("the answer to a step", got, answer);
    is("what a step leaves", memcmp(&stepped, l, sizeof stepped) != 0, 0);
    if (COWRIESTEP_KIND(answer) == COWRIESTEP_REFUSED) {
        refusals[COWRIESTEP_REFUSAL(answer)]++;
        is("what a refused step leaves", memcmp(&stepped, &before, sizeof before) != 0, 0);
    } else {
        want = added(was, e, &before.board, &l->board);
    }
    tallied("events.c", noted, want);
    struct dmm32_tally grown = { noted.begun - was.begun, noted.ended - was.ended, noted.abandoned - was.abandoned, noted.read - was.read,
        noted.lost - was.lost, noted.cleared - was.cleared };
    is("whether what was noted adds up", dmm32_tally_adds_up(grown, before.board, l->board), 1);
}

/* a number of the record that no working board has there */
static void damage(struct dmm32_board *b) {
    switch (below(6)) {
    case 0: b->fifo.held = (uint16_t)(513 + below(65023)); break;
    case 1: b->converter.converting = (uint8_t)(2 + below(254)); break;
    case 2: b->converter.scanen = (uint8_t)(2 + below(254)); break;
    case 3: b->pins.din = (uint8_t)(16 + below(240)); break;
    case 4: b->registers.page = (uint8_t)(4 + below(252)); break;
    default: b->fifo.place = (uint16_t)(512 + below(65024)); break;
    }
}

static void every_kind(void) {
    static const size_t memory_lengths[] = { 0, 1, 511, 513, 520 }, eeprom_lengths[] = { 0, 1, 127, 129, 136 };
    static struct lent l;
    for (int i = 0; i < ROUNDS; i++)
        for (uint8_t kind = 1; kind <= KINDS; kind++) {
            if (kind == 1 || below(3) == 0) random_board(&l);
            size_t memory_length = below(60) ? COWRIESTEP_MEMORY_LENGTH : memory_lengths[below(5)];
            size_t eeprom_length = below(60) ? COWRIESTEP_EEPROM_LENGTH : eeprom_lengths[below(5)];
            if (kind == COWRIESTEP_EVENT_CONVERSION_END && below(4)) l.board.converter.converting = 1;
            if (kind == COWRIESTEP_EVENT_TRANSFER_END && below(2)) l.board.calibration.transfer = (uint8_t)(1 + below(4));
            const struct dmm32_board kept = l.board;
            int broken = below(40) == 0;
            if (broken) damage(&l.board), damaged++;
            one(&l, memory_length, eeprom_length, random_event(kind, &kept));
            if (broken) l.board = kept;
        }
}

/* 0 and 12 to 255 are no event: 2 and 1 before 3, nothing changes, and nothing is counted. */
static void no_kinds(void) {
    static struct lent l, kept;
    for (unsigned kind = 0; kind < 256; kind = kind ? kind + 1 : KINDS + 1)
        for (int round = 0; round < 24; round++) {
            struct dmm32_event e = any_numbers();
            struct dmm32_tally was = { below(9), below(9), below(9), below(9), below(9), UINT64_MAX };
            int length = round % 3 == 1, broken = round % 4 == 1;
            e.kind = (uint8_t)kind;
            if (round % 2) e.offset = below(16);
            random_board(&l);
            if (round % 6 < 3) l.board.converter.converting = 1;
            if (broken) damage(&l.board);
            kept = l;
            size_t memory_length = length ? 511 : 512, eeprom_length = length && round % 2 ? 129 : 128;
            struct dmm32_tally noted = dmm32_note(was, l.board, l.memory, memory_length, l.eeprom, eeprom_length, e);
            is("the answer to no event", dmm32_step(&l.board, l.memory, memory_length, l.eeprom, eeprom_length, e), REFUSED(length ? 2 : broken ? 1 : 3));
            is("what no event leaves", memcmp(&l, &kept, sizeof l) != 0, 0);
            tallied("events.c, no event", noted, was);
        }
}

static void occurrences(void) {
    printf("events.c: %d rounds of every kind: begun", ROUNDS);
    occurred(" by a trigger or a timer's byte:", begun_by[COWRIESTEP_EVENT_WRITE_BYTE]);
    occurred(", by an end:", begun_by[COWRIESTEP_EVENT_CONVERSION_END]);
    occurred(", by DIN3:", begun_by[COWRIESTEP_EVENT_DIN]);
    occurred(", by a tick:", begun_by[COWRIESTEP_EVENT_TICK]);
    occurred("; ended:", ended);
    occurred("; abandoned:", abandoned);
    occurred(", in mid-scan:", mid_scan);
    occurred("; read:", reads);
    occurred("; lost:", lost);
    occurred("; cleared:", cleared);
    occurred(", 512 with OVF:", full_cleared);
    occurred("; damaged:", damaged);
    for (int i = 1; i <= 10; i++) printf("; refused by %d", i), occurred(":", refusals[i]);
    printf("\n");
    for (uint8_t kind = 1; kind <= KINDS; kind++)
        if (kind != 1 && kind != 4 && kind != 5 && kind != 10) is("begun by another kind", begun_by[kind], 0);
}

int main(void) {
    every_kind();
    no_kinds();
    occurrences();
    printf("events.c: %ld answers, records and counts compared, %ld differ\n", compared, differ);
    return differ != 0;
}
