/* The tally and the step of any kind in the benchmark: their events, and the comparison on random ones. */
#include <stdio.h>
#include <stdlib.h>
#include <string.h>

#include "host.h"

/* ---- the benchmark's events */

/* Six counts as the digits of a number, the last alone of more than one: what is cleared, lost, read, abandoned, ended, begun. */
static uint32_t as_digits(struct dmm32_tally t)
{
    return (uint32_t)(t.begun + 10 * (t.ended + 10 * (t.abandoned + 10 * (t.read + 10 * (t.lost + 10 * t.cleared)))));
}

#define NO_COUNTS (struct dmm32_tally){0}
#define WRITE(offset, value) (struct dmm32_event){COWRIESTEP_EVENT_WRITE_BYTE, value, 0, offset, 0}
#define READ(offset) (struct dmm32_event){COWRIESTEP_EVENT_READ_BYTE, 0, 0, offset, 0}
#define WORD (struct dmm32_event){COWRIESTEP_EVENT_READ_WORD, 0, 0, 0, 0}
#define END (struct dmm32_event){COWRIESTEP_EVENT_CONVERSION_END, 0, -7, 0, 0}
#define TICK (struct dmm32_event){COWRIESTEP_EVENT_TICK, 0, 0, 0, 0}
#define NOTE(event) as_digits(f->note(NO_COUNTS, BORROWED(s), event))
#define SHORT(event) as_digits(f->note(NO_COUNTS, s->board, s->memory, PLACES - 1, s->eeprom, EEPROM_BYTES, event))
#define SUMS(count) f->adds_up((struct dmm32_tally){.begun = count, .ended = count}, (struct dmm32_board){0}, s->board)

/* function, set-up, the call, what it answers, what it is */
#define NOTES(X)                                                                                                            \
    X(tally_status, set_empty, NOTE(READ(7)), 0, "note: status read of 7, 0 held")                                           \
    X(tally_word, set_256, NOTE(WORD), 1000, "note: word read, 256 held")                                                    \
    X(tally_end, set_converting_511, NOTE(END), 10, "note: conversion end, 511 held")                                        \
    X(tally_reset, set_256, NOTE(WRITE(8, 0x20)), 25600000, "note: RESETA, 256 held")                                        \
    X(tally_tick, set_falling_2, NOTE(TICK), 1, "note: tick in which a conversion begins")                                   \
    X(tally_count, set_counting, NOTE(WRITE(13, 10)), 0, "note: write of a count")                                           \
    X(tally_refused_1, set_damaged, NOTE(READ(7)), 0, "note: refused by 1, free place not 0")                                \
    X(tally_refused_2, set_empty, SHORT(READ(7)), 0, "note: refused by 2, memory too short")                                 \
    X(tally_sums, set_256, SUMS(256), 1, "tally_adds_up: 256 begun, ended and held")                                         \
    X(tally_step_word, set_256, f->step(STORES(s), WORD), 0x400003E8, "step: word read, 256 held")                           \
    X(tally_step_tick, set_counting, f->step(STORES(s), TICK), 0, "step: tick, counter 1 counts")

#define DEFINE_NOTE(function, setup, call, answer, what) \
    static NOT_INLINED uint32_t function(const struct calls *f, struct state *s) { return call; }
NOTES(DEFINE_NOTE)

#define LIST_NOTE(function, setup, call, answer, what) {#function, setup, function, answer, what},
const struct event notes[NOTE_COUNT] = {NOTES(LIST_NOTE)};

/* ---- random events */

enum { COUNTS = sizeof(struct dmm32_tally) / sizeof(uint64_t) };
static const char *const names[COUNTS] = {"begun", "ended", "abandoned", "read", "lost", "cleared"};

static void fail(const char *what, const char *name, unsigned long n)
{
    fprintf(stderr, "bench: random event %lu of a tally: %s %s\n", n, what, name);
    exit(1);
}

/* The event of a happening that is no advance; of kind 12, no event. */
static struct dmm32_event event_of(const struct happening *h)
{
    static const uint8_t no_events[] = {0, 12, 13, 128, 255};
    uint8_t kind = h->kind == 12 ? no_events[below(sizeof no_events)] : (uint8_t)(h->kind + COWRIESTEP_EVENT_WRITE_BYTE);
    return (struct dmm32_event){kind, h->value, h->code, h->offset, h->level};
}

/* Counts at or near their largest. */
static struct dmm32_tally full_tally(void)
{
    uint64_t counts[COUNTS];
    struct dmm32_tally t;
    for (int i = 0; i < COUNTS; i++)
        counts[i] = UINT64_MAX - below(4) * below(200);
    memcpy(&t, counts, sizeof t);
    return t;
}

/* One count is another; or as many go from one to another of the same side, round the end of 64 bits where there are not so many. */
static struct dmm32_tally damaged_tally(struct dmm32_tally t)
{
    uint64_t *counts[COUNTS] = {&t.begun, &t.ended, &t.abandoned, &t.read, &t.lost, &t.cleared};
    uint64_t change = UINT64_C(1) << below(64);
    if (below(2)) {
        *counts[below(COUNTS)] ^= change;
    } else {
        t.lost += change;
        t.cleared -= change;
    }
    return t;
}

/* The counts that are others after an event. */
static void see_moves(unsigned long *moves, const struct dmm32_tally *before, const struct dmm32_tally *after)
{
    uint64_t was[COUNTS], is[COUNTS];
    memcpy(was, before, sizeof was);
    memcpy(is, after, sizeof is);
    for (int i = 0; i < COUNTS; i++)
        moves[i] += is[i] != was[i];
}

static bool check_sums(struct dmm32_tally t, const struct dmm32_board *first, const struct dmm32_board *now, unsigned long n)
{
    bool sums = boards[0].adds_up(t, *first, *now);
    for (int b = 1; b < BOARDS; b++)
        if (boards[b].adds_up(t, *first, *now) != sums)
            fail("the sums differ, library and", boards[b].name, n);
    return sums;
}

/* The tally with an event, which then happens to all boards. */
static struct dmm32_tally check_noted(struct dmm32_tally tally, struct state *s, unsigned long n)
{
    struct happening h = random_event();
    struct dmm32_event e = event_of(&h);
    struct dmm32_tally noted[BOARDS];
    uint32_t answers[BOARDS];
#define KEPT_BY(s) (s).board, (s).memory, h.memory_length, (s).eeprom, h.eeprom_length
    for (int b = 0; b < BOARDS; b++) {
        const struct calls *f = &boards[b];
        noted[b] = h.kind == 11 ? f->note_ticks(tally, KEPT_BY(s[b]), h.ticks) : f->note(tally, KEPT_BY(s[b]), e);
        answers[b] = h.kind == 11 ? as_number(f->advance(&KEPT_BY(s[b]), h.ticks)) : f->step(&KEPT_BY(s[b]), e);
        if (memcmp(&noted[b], &noted[0], sizeof *noted) != 0)
            fail("the tallies differ, library and", f->name, n);
    }
    check_same(s, answers, "a random event of a tally");
    return noted[0];
}

static void report(unsigned long count, const unsigned long *moves, unsigned long amiss)
{
    bool all = amiss > 0;
    printf("bench: library and baseline agree on %lu random events of a tally:", count);
    for (int i = 0; i < COUNTS; i++) {
        printf(" %lu %s,", moves[i], names[i]);
        all = all && moves[i] > 0;
    }
    printf(" and on %lu sums that do not hold\n", amiss);
    if (!all) {
        fprintf(stderr, "bench: a count never went up, or each sum holds: take more events\n");
        exit(1);
    }
}

/* Sums have to hold where a tally began as zeros; those of a damaged one are compared too. */
void check_tallies(uint64_t seed, unsigned long count)
{
    static struct state s[BOARDS];
    struct dmm32_board first = {0};
    struct dmm32_tally tally = {0};
    unsigned long moves[COUNTS] = {0}, amiss = 0;
    bool zeros = true;
    begin_random(seed);
    for (unsigned long n = 0; n < count; n++) {
        if (n % 64 == 0) {
            random_boards(s);
            first = s[0].board;
            zeros = below(8);
            tally = zeros ? NO_COUNTS : full_tally();
        }
        struct dmm32_tally noted = check_noted(tally, s, n);
        see_moves(moves, &tally, &noted);
        tally = noted;
        if (!check_sums(tally, &first, &s[0].board, n) && zeros)
            fail("the sums do not hold, by", "all", n);
        amiss += !check_sums(damaged_tally(tally), &first, &s[0].board, n);
    }
    report(count, moves, amiss);
}
