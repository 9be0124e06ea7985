/*
 * The host of the benchmark: it runs the same events over the library and over the board of bench/baseline.c, compiled with -O2 and with -O3.
 *
 *   host check SEED COUNT    runs the benchmark's events and COUNT random ones over all three, and fails where an answer, a record or a memory differs
 *   host measure TIMES       runs each of the benchmark's events TIMES times over each of the three, for callgrind to count
 *   host single EVENT TIMES  runs one of them, named by its function, TIMES times over the library alone
 *   host list                prints the benchmark's events, one to a line: the function that makes the call, and what the event is
 *   host spans TIMES MOST    runs each span of ticks TIMES times over each of the three, but for those of more than MOST ticks
 *   host list_spans          prints the spans, one to a line: the function that makes the call, what the span is, how many calls make it, and its ticks
 *
 * The events of the tally, and of the step of any kind, stand in bench/tally.c: COUNT random ones of these are compared too.
 * Every call that is counted is made from a function of its own (`event_...`, `tally_...`, `span_...`), so that callgrind's costs from that caller to that callee are the
 * event's alone. Each begins at the same state, which is put back before it.
 */
#include <inttypes.h>
#include <stdio.h>
#include <stdlib.h>
#include <string.h>

#include "host.h"

/* ---- three boards */

#define CALLS(name, prefix, time, any, tally)                                                                                   \
    {name, prefix##fresh, prefix##fresh_stores, prefix##is_working, prefix##write_byte, prefix##read_byte, prefix##read_word,   \
     prefix##conversion_end, prefix##din, prefix##latch, prefix##port_a_pins, prefix##port_b_pins, prefix##port_c_pins, prefix##tick,         \
     time##advance, time##ticks_until, prefix##transfer_end, any##step, tally##note, tally##note_ticks, tally##tally_adds_up}

const struct calls boards[BOARDS] = {CALLS("library", dmm32_, dmm32_, dmm32_, dmm32_),
    CALLS("baseline -O2", baseline_o2_, baseline_o2_time_, baseline_o2_step_, baseline_o2_tally_),
    CALLS("baseline -O3", baseline_o3_, baseline_o3_time_, baseline_o3_step_, baseline_o3_tally_)};

/* ---- the benchmark's events */

static void write_to(struct state *s, uint8_t offset, uint8_t value)
{
    if (dmm32_write_byte(STORES(s), offset, value) != COWRIESTEP_DONE) {
        fprintf(stderr, "bench: set-up: a write of %d to %d is refused\n", value, offset);
        exit(1);
    }
}

static void fresh(struct state *s)
{
    s->board = dmm32_fresh(COWRIESTEP_JUMPERS_A, 0);
    dmm32_fresh_stores(s->memory, PLACES, s->eeprom, EEPROM_BYTES);
    write_to(s, 2, 3);
    write_to(s, 3, 5);
    write_to(s, 11, 8);
    write_to(s, 6, 128);
    write_to(s, 7, 0x08);
    write_to(s, 9, 0x80);
}

static void convert(struct state *s, unsigned code)
{
    write_to(s, 0, 0);
    dmm32_conversion_end(STORES(s), (int16_t)code);
}

/* `held` samples, the oldest at this place, with the codes from 1000 + place on: as many as come before it are stored and read, one always held, since the place
   goes back to 0 with the last. */
static void hold_from(struct state *s, unsigned place, unsigned held)
{
    fresh(s);
    for (unsigned i = 0; held && i < place + held; i++) {
        convert(s, 1000 + i);
        if (i > 0 && i <= place)
            dmm32_read_word(STORES(s), 0);
    }
    write_to(s, 8, 0x08);
}

static void hold(struct state *s, unsigned held) { hold_from(s, 0, held); }

/* Counters 1 and 2 in mode 2 as the internal clock, each with the count 10, ticked until their counts stand at these. */
static void cascade(struct state *s, unsigned first, unsigned second)
{
    fresh(s);
    write_to(s, 15, 0x74);
    write_to(s, 13, 10);
    write_to(s, 13, 0);
    write_to(s, 15, 0xB4);
    write_to(s, 14, 10);
    write_to(s, 14, 0);
    write_to(s, 9, 0x03);
    const struct dmm32_timer *t = &s->board.clocks.timer;
    for (int i = 0; i < 1000; i++) {
        if (t->counter1.count.element == first && t->counter2.count.element == second && !s->board.converter.converting)
            return;
        dmm32_tick(STORES(s));
    }
    fprintf(stderr, "bench: set-up: the counts %u and %u are not reached\n", first, second);
    exit(1);
}

void set_empty(struct state *s) { hold(s, 0); }
static void set_1(struct state *s) { hold(s, 1); }
void set_256(struct state *s) { hold(s, 256); }
static void set_511(struct state *s) { hold(s, 511); }
static void set_256_middle(struct state *s) { hold_from(s, 128, 256); }
static void set_256_round(struct state *s) { hold_from(s, 384, 256); }
static void set_converting_0(struct state *s) { hold(s, 0); write_to(s, 0, 0); }
void set_converting_511(struct state *s) { hold(s, 511); write_to(s, 0, 0); }
void set_counting(struct state *s) { cascade(s, 5, 5); }
static void set_falling_1(struct state *s) { cascade(s, 2, 5); }
void set_falling_2(struct state *s) { cascade(s, 2, 2); }
static void set_dacbusy(struct state *s) { hold(s, 0); write_to(s, 5, 0x48); }
void set_damaged(struct state *s) { hold(s, 0); s->memory[PLACES - 1] = 1; }

/* function, set-up, the call, what it answers, what it is */
#define EVENTS(X)                                                                                                                               \
    X(event_status_7, set_empty, read_byte(STORES(s), 7), 0x20000088, "status read: 7, 0 held")                                                   \
    X(event_status_8, set_empty, read_byte(STORES(s), 8), 0x20000063, "status read: 8, 0 held")                                                   \
    X(event_status_7_at_256, set_256, read_byte(STORES(s), 7), 0x20000048, "status read: 7, 256 held")                                            \
    X(event_write_6, set_empty, write_byte(STORES(s), 6, 64), 0, "register write: 6, 0 held")                                                     \
    X(event_write_10, set_counting, write_byte(STORES(s), 10, 0x80), 0, "register write: 10, 0 held")                                             \
    X(event_word_at_1, set_1, read_word(STORES(s), 0), 0x400003E8, "word read: 1 held")                                                           \
    X(event_word_at_256, set_256, read_word(STORES(s), 0), 0x400003E8, "word read: 256 held")                                                     \
    X(event_word_at_511, set_511, read_word(STORES(s), 0), 0x400003E8, "word read: 511 held")                                                     \
    X(event_word_middle, set_256_middle, read_word(STORES(s), 0), 0x40000468, "word read: 256 held, from place 128 on")                                \
    X(event_word_round, set_256_round, read_word(STORES(s), 0), 0x40000568, "word read: 256 held, round the end")                                     \
    X(event_end_at_0, set_converting_0, conversion_end(STORES(s), -7), 0, "conversion end: 0 held")                                               \
    X(event_end_at_511, set_converting_511, conversion_end(STORES(s), -7), 0, "conversion end: 511 held")                                         \
    X(event_tick, set_counting, tick(STORES(s)), 0, "tick: counter 1 counts")                                                                     \
    X(event_tick_out1, set_falling_1, tick(STORES(s)), 0, "tick: OUT1 falls, counter 2 counts")                                                   \
    X(event_tick_out2, set_falling_2, tick(STORES(s)), 0, "tick: OUT1 and OUT2 fall, a conversion begins")                                        \
    X(event_refused_2, set_empty, read_byte(&s->board, s->memory, PLACES - 1, s->eeprom, EEPROM_BYTES, 7), 0x62000000, "refused by 2: memory too short") \
    X(event_refused_1, set_damaged, read_byte(STORES(s), 7), 0x61000000, "refused by 1: free place not 0")                                        \
    X(event_refused_3, set_empty, read_byte(STORES(s), 16), 0x63000000, "refused by 3: read at 16")                                               \
    X(event_refused_6, set_dacbusy, write_byte(STORES(s), 5, 0), 0x66000000, "refused by 6: write to 5, DACBUSY")

#define DEFINE_EVENT(function, setup, call, answer, what) \
    static NOT_INLINED uint32_t function(const struct calls *f, struct state *s) { return f->call; }
EVENTS(DEFINE_EVENT)

#define LIST_EVENT(function, setup, call, answer, what) {#function, setup, function, answer, what},
static const struct event events[] = {EVENTS(LIST_EVENT)};
enum { OWN_COUNT = sizeof events / sizeof *events, EVENT_COUNT = OWN_COUNT + NOTE_COUNT };

/* Those that stand here, then those of the tally. */
static const struct event *event_at(int e) { return e < OWN_COUNT ? &events[e] : &notes[e - OWN_COUNT]; }

/* An event over the first `count` boards. */
static void repeat(const struct event *event, int count, unsigned long times)
{
    static struct state at, s;
    event->setup(&at);
    for (int b = 0; b < count; b++)
        for (unsigned long n = 0; n < times; n++) {
            s = at;
            event->run(&boards[b], &s);
        }
}

static void measure(unsigned long times)
{
    for (int e = 0; e < EVENT_COUNT; e++)
        repeat(event_at(e), BOARDS, times);
}

static void single(const char *function, unsigned long times)
{
    for (int e = 0; e < EVENT_COUNT; e++)
        if (strcmp(event_at(e)->function, function) == 0)
            repeat(event_at(e), 1, times);
}

/* ---- spans of ticks */

/* The answer of an advance with the ticks done as its number: these are fewer than 2^24 here. */
uint32_t as_number(struct dmm32_advanced a) { return a.answer + a.done; }

/* Counters 1 and 2 in mode 2, each with this count; Base + 10 and Base + 9 as given. */
static void pace(struct state *s, unsigned count, uint8_t counting, uint8_t operation)
{
    fresh(s);
    write_to(s, 10, counting);
    for (uint8_t n = 1; n <= 2; n++) {
        write_to(s, 15, (uint8_t)(n << 6 | 0x34));
        write_to(s, 12 + n, (uint8_t)count);
        write_to(s, 12 + n, (uint8_t)(count >> 8));
    }
    write_to(s, 9, operation);
}

/* The conversion that has begun ends, and its sample is read. */
static NOT_INLINED void settle(const struct calls *f, struct state *s)
{
    if (!s->board.converter.converting)
        return;
    f->conversion_end(STORES(s), 1);
    f->read_word(STORES(s), 0);
}

/* The first conversion has just ended. */
static void converted(struct state *s, unsigned count, uint8_t counting)
{
    pace(s, count, counting, 0x03);
    dmm32_advance(STORES(s), count * count * 100 + 100);
    if (!s->board.converter.converting) {
        fprintf(stderr, "bench: set-up: no conversion begins\n");
        exit(1);
    }
    settle(&boards[0], s);
}

static void set_twos(struct state *s) { converted(s, 2, 0); }
static void set_tens(struct state *s) { converted(s, 10, 0); }
static void set_tens_slow(struct state *s) { converted(s, 10, 0x80); }
static void set_thousands(struct state *s) { converted(s, 1000, 0); }
static void set_twos_muted(struct state *s) { pace(s, 2, 0, 0); }
static void set_fours_muted(struct state *s) { pace(s, 4, 0, 0); }
static void set_three_muted(struct state *s)
{
    pace(s, 2, 0, 0);
    write_to(s, 15, 0x34);
    write_to(s, 12, 2);
    write_to(s, 12, 0);
}
static void set_tens_muted(struct state *s) { pace(s, 10, 0, 0); }

/* The conversions that begin in so many ticks: one, where they are noted. */
#define BEGUN(ticks) (uint32_t)f->note_ticks((struct dmm32_tally){0}, BORROWED(s), ticks).begun

/* function, set-up, the call, how many of them make the span, the ticks of each, what it is */
#define SPANS(X)                                                                                                                                             \
    X(span_twos, set_twos, as_number(f->advance(STORES(s), 100)), 1, 4, "advance: 10 MHz, counts of 2, from a conversion to the next")                            \
    X(span_twos_muted, set_twos_muted, as_number(f->advance(STORES(s), 100000)), 1, 100000, "advance: 10 MHz, counts of 2, no CLKEN")                           \
    X(span_fours_muted, set_fours_muted, as_number(f->advance(STORES(s), 100000)), 1, 100000, "advance: 10 MHz, counts of 4, no CLKEN")                         \
    X(span_three_muted, set_three_muted, as_number(f->advance(STORES(s), 100000)), 1, 100000, "advance: 10 MHz, counts of 2, counter 0 too, no CLKEN") \
    X(span_tens, set_tens, as_number(f->advance(STORES(s), 1000)), 1, 100, "advance: 10 MHz, counts of 10, from a conversion to the next")                        \
    X(span_tens_muted, set_tens_muted, as_number(f->advance(STORES(s), 100000)), 1, 100000, "advance: 10 MHz, counts of 10, no CLKEN")                           \
    X(span_tens_slow, set_tens_slow, as_number(f->advance(STORES(s), 100000)), 1, 10000, "advance: 100 kHz, counts of 10, from a conversion to the next")         \
    X(span_second, set_thousands, as_number(f->advance(STORES(s), 10000000)), 10, 1000000, "advance: 10 MHz, counts of 1,000, a second: ten conversions")         \
    X(span_until, set_thousands, f->ticks_until(BORROWED(s), 10000000), 1, 1000000, "ticks_until: 10 MHz, counts of 1,000, from a conversion to the next")        \
    X(span_until_muted, set_tens_muted, f->ticks_until(BORROWED(s), 100000), 1, 100000, "ticks_until: 10 MHz, counts of 10, no CLKEN")                           \
    X(span_note_tens, set_tens, BEGUN(1000) * 100, 1, 100, "note_ticks: 10 MHz, counts of 10, from a conversion to the next")                                     \
    X(span_note, set_thousands, BEGUN(10000000) * 1000000, 1, 1000000, "note_ticks: 10 MHz, counts of 1,000, from a conversion to the next")

#define DEFINE_SPAN(function, setup, call, made, ticks, what) \
    static NOT_INLINED uint32_t function(const struct calls *f, struct state *s) { return call; }
SPANS(DEFINE_SPAN)

struct span {
    const char *function;
    void (*setup)(struct state *);
    uint32_t (*run)(const struct calls *, struct state *);
    unsigned calls;
    uint32_t ticks;
    const char *what;
};
#define LIST_SPAN(function, setup, call, made, ticks, what) {#function, setup, function, made, ticks, what},
static const struct span spans[] = {SPANS(LIST_SPAN)};
enum { SPAN_COUNT = sizeof spans / sizeof *spans };

static void measure_spans(unsigned long times, unsigned long most)
{
    static struct state at, s;
    for (const struct span *span = spans; span < spans + SPAN_COUNT; span++) {
        if ((unsigned long)span->calls * span->ticks > most)
            continue;
        span->setup(&at);
        for (int b = 0; b < BOARDS; b++)
            for (unsigned long n = 0; n < times; n++) {
                s = at;
                for (unsigned call = 0; call < span->calls; call++) {
                    span->run(&boards[b], &s);
                    settle(&boards[b], &s);
                }
            }
    }
}

/* ---- the record's fields, and the most that a working board has in each: 1 in a flag */

#define COUNTER(X, n)                                                                                                                             \
    X(clocks.timer.n.control, 63) X(clocks.timer.n.trigger, 1) X(clocks.timer.n.count.count_register, 65535) X(clocks.timer.n.count.element, 65535)  \
    X(clocks.timer.n.count.out, 1) X(clocks.timer.n.count.waiting, 1) X(clocks.timer.n.count.loaded, 1) X(clocks.timer.n.bytes.latch, 65535)         \
    X(clocks.timer.n.bytes.latched, 1) X(clocks.timer.n.bytes.halfread, 1) X(clocks.timer.n.bytes.first, 255) X(clocks.timer.n.bytes.halfwritten, 1)
#define FIELDS(X)                                                                                                                                 \
    X(converter.low, 31) X(converter.high, 31) X(converter.selected, 31) X(converter.channel, 31) X(converter.converting, 1) X(converter.scanen, 1)  \
    X(converter.clken, 1) X(requests.threshold, 255) X(requests.fifoen, 1) X(requests.clksel, 1) X(requests.adinte, 1) X(requests.dinte, 1)          \
    X(requests.tinte, 1) X(requests.flags.adint, 1) X(requests.flags.dint, 1) X(requests.flags.tint, 1) X(fifo.held, 512) X(fifo.place, 511) X(fifo.ovf, 1)             \
    X(registers.page, 3) X(registers.dout, 7) X(registers.counting, 255) X(registers.range, 15) X(outputs.codes.out0, 4095)                       \
    X(outputs.codes.out1, 4095) X(outputs.codes.out2, 4095) X(outputs.codes.out3, 4095) X(outputs.load.loaded, 1) X(outputs.load.channel, 3)      \
    X(outputs.load.code, 4095) X(outputs.lsb, 255) X(outputs.busy, 100) COUNTER(X, counter0) COUNTER(X, counter1) COUNTER(X, counter2)            \
    X(clocks.hundred, 99) X(clocks.thousand, 999) X(ports.control, 255) X(ports.latches.a, 255) X(ports.latches.b, 255) X(ports.latches.c, 255)   \
    X(ports.pins.a, 255) X(ports.pins.b, 255) X(ports.pins.c, 255) X(calibration.value, 255) X(calibration.address, 127)                          \
    X(calibration.transfer, 4) X(calibration.key, 1) X(calibration.cmuxen, 1) X(calibration.trim[0], 255) X(calibration.trim[1], 255)             \
    X(calibration.trim[2], 255) X(calibration.trim[3], 255) X(calibration.trim[4], 255) X(calibration.trim[5], 255) X(calibration.trim[6], 255)   \
    X(calibration.trim[7], 255) X(pins.din, 15) X(pins.latch, 1) X(wiring.inputs, 3) X(wiring.zeroscale, 1)

struct field {
    const char *name;
    size_t offset, size;
    unsigned most;
};
#define LIST_FIELD(field, most) {#field, offsetof(struct dmm32_board, field), sizeof((struct dmm32_board *)0)->field, most},
static const struct field fields[] = {FIELDS(LIST_FIELD)};
enum { FIELD_COUNT = sizeof fields / sizeof *fields };

static unsigned get(const struct dmm32_board *b, const struct field *f)
{
    const unsigned char *at = (const unsigned char *)b + f->offset;
    uint16_t wide;
    if (f->size == 1)
        return *at;
    memcpy(&wide, at, sizeof wide);
    return wide;
}

static void put(struct dmm32_board *b, const struct field *f, unsigned value)
{
    unsigned char *at = (unsigned char *)b + f->offset, narrow = (unsigned char)value;
    uint16_t wide = (uint16_t)value;
    memcpy(at, f->size == 1 ? (void *)&narrow : (void *)&wide, f->size);
}

/* ---- comparing */

/* Records are compared as their bytes; fields tell where they differ. */
static bool same_state(const struct state *x, const struct state *y, const char *name)
{
    bool same = memcmp(&x->board, &y->board, sizeof x->board) == 0;
    for (int i = 0; i < FIELD_COUNT && !same; i++)
        if (get(&x->board, &fields[i]) != get(&y->board, &fields[i]))
            fprintf(stderr, "bench: %s: library %u, %s %u\n", fields[i].name, get(&x->board, &fields[i]), name, get(&y->board, &fields[i]));
    if (memcmp(x->memory, y->memory, sizeof x->memory) != 0 || memcmp(x->eeprom, y->eeprom, sizeof x->eeprom) != 0) {
        fprintf(stderr, "bench: the memories of library and %s differ\n", name);
        same = false;
    }
    return same;
}

void check_same(const struct state *s, const uint32_t *answers, const char *what)
{
    for (int b = 1; b < BOARDS; b++) {
        bool same = same_state(&s[0], &s[b], boards[b].name);
        if (answers[0] != answers[b])
            fprintf(stderr, "bench: answers: library %08" PRIX32 ", %s %08" PRIX32 "\n", answers[0], boards[b].name, answers[b]);
        if (!same || answers[0] != answers[b]) {
            fprintf(stderr, "bench: library and %s differ after: %s\n", boards[b].name, what);
            exit(1);
        }
    }
}

static void check_events(void)
{
    static struct state at, s[BOARDS];
    for (int e = 0; e < EVENT_COUNT; e++) {
        const struct event *event = event_at(e);
        uint32_t answers[BOARDS];
        event->setup(&at);
        for (int b = 0; b < BOARDS; b++) {
            s[b] = at;
            answers[b] = event->run(&boards[b], &s[b]);
        }
        check_same(s, answers, event->what);
        if (answers[0] != event->answer) {
            fprintf(stderr, "bench: %s: %08" PRIX32 " is answered, not %08" PRIX32 "\n", event->what, answers[0], event->answer);
            exit(1);
        }
    }
    printf("bench: library and baseline agree on the %d events of the benchmark\n", EVENT_COUNT);
}

static void check_spans(void)
{
    static struct state s[BOARDS];
    for (const struct span *span = spans; span < spans + SPAN_COUNT; span++) {
        span->setup(&s[0]);
        s[1] = s[2] = s[0];
        for (unsigned call = 0; call < span->calls; call++) {
            uint32_t answers[BOARDS];
            for (int b = 0; b < BOARDS; b++)
                answers[b] = span->run(&boards[b], &s[b]);
            check_same(s, answers, span->what);
            if (answers[0] != span->ticks) {
                fprintf(stderr, "bench: %s: %08" PRIX32 " is answered, not %" PRIu32 " ticks\n", span->what, answers[0], span->ticks);
                exit(1);
            }
            for (int b = 0; b < BOARDS; b++)
                settle(&boards[b], &s[b]);
        }
    }
    printf("bench: library and baseline agree on the %d spans of ticks\n", SPAN_COUNT);
}

/* ---- random events */

static uint64_t random_state;

void begin_random(uint64_t seed) { random_state = seed * UINT64_C(0x9E3779B97F4A7C15) | 1; }

unsigned below(unsigned n)
{
    random_state ^= random_state << 13;
    random_state ^= random_state >> 7;
    random_state ^= random_state << 17;
    return (unsigned)((random_state * UINT64_C(0x2545F4914F6CDD1D) >> 32) % n);
}

static void random_counter(struct dmm32_counter *c)
{
    static const uint8_t controls[] = {0, 16, 20, 28, 32, 36, 44, 48, 52, 60};
    c->control = controls[below(sizeof controls)];
    if (below(2))
        c->count.count_register = (uint16_t)below(5);
    if (below(2))
        c->count.element = (uint16_t)below(4);
    if (c->control & 4 && c->count.count_register == 1)
        c->count.count_register = 2;
    if (c->control == 0)
        c->count.out = 1;
}

/* A working board in any state. */
static void random_board(struct state *s)
{
    static const unsigned helds[] = {0, 0, 1, 2, 255, 256, 257, 510, 511, 512};
    for (int i = 0; i < FIELD_COUNT; i++)
        put(&s->board, &fields[i], below(fields[i].most + 1));
    random_counter(&s->board.clocks.timer.counter0);
    random_counter(&s->board.clocks.timer.counter1);
    random_counter(&s->board.clocks.timer.counter2);
    s->board.ports.control = (uint8_t)(0x80 | (below(32) & 0x1B));
    if (below(3))
        s->board.fifo.held = (uint16_t)helds[below(sizeof helds / sizeof *helds)];
    s->board.fifo.ovf = s->board.fifo.held == PLACES && below(2);
    if (below(2))
        s->board.outputs.busy = (uint8_t)below(3);
    if (below(2))
        s->board.clocks.hundred = 98, s->board.clocks.thousand = 997;
    if (s->board.fifo.held == 0)
        s->board.fifo.place = 0;
    for (unsigned i = 0; i < PLACES; i++)
        s->memory[(s->board.fifo.place + i) % PLACES] = i < s->board.fifo.held ? (uint16_t)below(65536) : 0;
    for (unsigned i = 0; i < EEPROM_BYTES; i++)
        s->eeprom[i] = (uint8_t)below(256);
}

/* One field, one byte or one place of the memory has some other value; a flag is its opposite or is none. */
static void damage(struct state *s)
{
    const struct field *f = &fields[below(FIELD_COUNT)];
    unsigned beyond = f->most + 1 + (below(2) ? 0 : below(65536));
    switch (below(8)) {
    case 0:
    case 1:
        s->memory[below(PLACES)] ^= (uint16_t)(1u << below(16));
        break;
    case 2:
        ((unsigned char *)&s->board)[below(sizeof s->board)] ^= (unsigned char)(1u << below(8));
        break;
    default:
        put(&s->board, f, f->most == 1 && below(3) == 0 ? !get(&s->board, f) : beyond);
    }
}

/* A byte that a guest may well write at an offset. */
static uint8_t likely_byte(uint32_t offset)
{
    static const uint8_t words[] = {0x14, 0x34, 0x30, 0x24, 0x54, 0x74, 0x70, 0x64, 0x94, 0xB4, 0xB0, 0xA4, 0x00, 0x40, 0x80, 0x9B, 0x80, 0xA5};
    static const uint8_t commands[] = {0x80, 0xC0, 0x20, 0x08, 0x10, 0xA0};
    switch (offset) {
    case 8:
        return (uint8_t)(below(8) ? below(4) : below(64));
    case 7:
        return (uint8_t)(below(16) ? below(4) * 4 : below(16));
    case 12:
    case 13:
        return (uint8_t)below(4);
    case 14:
        return below(2) ? commands[below(sizeof commands)] : (uint8_t)below(4);
    case 15:
        return words[below(sizeof words)];
    default:
        return (uint8_t)below(256);
    }
}

struct happening random_event(void)
{
    static const uint8_t kinds[] = {0, 0, 0, 0, 0, 1, 1, 1, 2, 2, 3, 3, 3, 3, 4, 4, 5, 6, 7, 8, 9, 9, 9, 9, 10, 11, 11, 12};
    static const uint32_t wide[] = {16, 255, 256, 263, 271, 65536, 65551, 0x80000000, 0xFFFFFFFF};
    struct happening h = {kinds[below(sizeof kinds)], below(16), below(16), 0, (int16_t)below(65536), 0, PLACES, EEPROM_BYTES};
    h.value = below(2) ? likely_byte(h.offset) : (uint8_t)below(256);
    if (h.kind > 10)
        h.ticks = below(4) ? below(300) : below(2) ? below(3) : below(5000);
    if (h.kind == 3 && below(8) == 0)
        h.code = -1;
    if (h.kind == 2 && below(8))
        h.offset = 0;
    else if (below(30) == 0)
        h.offset = below(2) ? below(256) : wide[below(sizeof wide / sizeof *wide)];
    if (below(8) == 0)
        h.level = wide[below(sizeof wide / sizeof *wide)];
    else if (h.kind == 5)
        h.level &= 1;
    if (below(200) == 0)
        h.memory_length = below(PLACES + 1);
    if (below(200) == 0)
        h.eeprom_length = below(EEPROM_BYTES + 1);
    return h;
}

static uint32_t happen(const struct calls *f, struct state *s, const struct happening *h)
{
#define GIVEN &s->board, s->memory, h->memory_length, s->eeprom, h->eeprom_length
    switch (h->kind) {
    case 0:
        return f->write_byte(GIVEN, h->offset, h->value);
    case 1:
        return f->read_byte(GIVEN, h->offset);
    case 2:
        return f->read_word(GIVEN, h->offset);
    case 3:
        return f->conversion_end(GIVEN, h->code);
    case 4:
        return f->din(GIVEN, h->level);
    case 5:
        return f->latch(GIVEN, h->level);
    case 6:
        return f->port_a_pins(GIVEN, h->value);
    case 7:
        return f->port_b_pins(GIVEN, h->value);
    case 8:
        return f->port_c_pins(GIVEN, h->value);
    case 9:
        return f->tick(GIVEN);
    case 11:
        return as_number(f->advance(GIVEN, h->ticks));
    case 12:
        return f->ticks_until(s->board, s->memory, h->memory_length, s->eeprom, h->eeprom_length, h->ticks);
    default:
        return f->transfer_end(GIVEN);
    }
}

static void check_fresh(struct state *s)
{
    uint32_t jumpers = below(8) ? below(4) : below(2) ? below(256) : below(65536) << 8;
    uint32_t zero_scale = below(2) << below(32);
    size_t memory_length = below(8) ? PLACES : below(PLACES), eeprom_length = below(8) ? EEPROM_BYTES : below(EEPROM_BYTES);
    uint32_t answers[BOARDS];
    for (int b = 0; b < BOARDS; b++) {
        s[b].board = boards[b].fresh(jumpers, zero_scale);
        answers[b] = boards[b].fresh_stores(s[b].memory, memory_length, s[b].eeprom, eeprom_length);
    }
    check_same(s, answers, "fresh board and stores");
}

static void check_working(const struct state *s)
{
    bool first = boards[0].is_working(s[0].board, s[0].memory, PLACES);
    for (int b = 1; b < BOARDS; b++)
        if (boards[b].is_working(s[b].board, s[b].memory, PLACES) != first) {
            fprintf(stderr, "bench: library and %s differ on whether a board works\n", boards[b].name);
            exit(1);
        }
}

/* A fresh board, a working one in any state, or a damaged one, the same in all three. */
void random_boards(struct state *s)
{
    check_fresh(s);
    if (below(8))
        random_board(&s[0]);
    if (below(6) == 0)
        damage(&s[0]);
    for (int b = 1; b < BOARDS; b++)
        s[b] = s[0];
    check_working(s);
}

static void check_random(uint64_t seed, unsigned long count)
{
    static struct state s[BOARDS];
    unsigned long refusals[32] = {0}, kinds[8] = {0}, all_ones = 0;
    begin_random(seed);
    for (unsigned long n = 0; n < count; n++) {
        if (n % 64 == 0)
            random_boards(s);
        struct happening h = random_event();
        uint32_t answers[BOARDS];
        char what[180];
        for (int b = 0; b < BOARDS; b++)
            answers[b] = happen(&boards[b], &s[b], &h);
        snprintf(what, sizeof what, "random event %lu of seed %" PRIu64 ", kind %u, offset %" PRIu32 ", level %" PRIu32 ", value %u, ticks %" PRIu32, n, seed,
                 h.kind, h.offset, h.level, h.value, h.ticks);
        check_same(s, answers, what);
        kinds[COWRIESTEP_KIND(answers[0])]++;
        refusals[COWRIESTEP_REFUSAL(answers[0])]++;
        all_ones += COWRIESTEP_KIND(answers[0]) == COWRIESTEP_WORD && COWRIESTEP_NUMBER(answers[0]) == 65535;
    }
    if (kinds[COWRIESTEP_NOTHING] == 0 || all_ones == 0) {
        fprintf(stderr, "bench: no word read of an empty memory, or none of a sample of FFFF: take more events\n");
        exit(1);
    }
    printf("bench: library and baseline agree on %lu random events: %lu done, %lu bytes, %lu words (%lu of them FFFF), %lu times nothing; refused by", count,
           kinds[COWRIESTEP_DONE], kinds[COWRIESTEP_BYTE], kinds[COWRIESTEP_WORD], all_ones, kinds[COWRIESTEP_NOTHING]);
    for (int number = 1; number <= 10; number++) {
        printf(" %d: %lu%s", number, refusals[number], number < 10 ? "," : "\n");
        if (refusals[number] == 0) {
            fprintf(stderr, "bench: no event was refused by %d: take more events\n", number);
            exit(1);
        }
    }
}

int main(int count, char **words)
{
    if (count == 4 && strcmp(words[1], "check") == 0) {
        check_events();
        check_spans();
        check_random(strtoull(words[2], NULL, 10), strtoul(words[3], NULL, 10));
        check_tallies(strtoull(words[2], NULL, 10), strtoul(words[3], NULL, 10));
    } else if (count == 3 && strcmp(words[1], "measure") == 0) {
        measure(strtoul(words[2], NULL, 10));
    } else if (count == 4 && strcmp(words[1], "single") == 0) {
        single(words[2], strtoul(words[3], NULL, 10));
    } else if (count == 2 && strcmp(words[1], "list") == 0) {
        for (int e = 0; e < EVENT_COUNT; e++)
            printf("%s\t%s\n", event_at(e)->function, event_at(e)->what);
    } else if (count == 4 && strcmp(words[1], "spans") == 0) {
        measure_spans(strtoul(words[2], NULL, 10), strtoul(words[3], NULL, 10));
    } else if (count == 2 && strcmp(words[1], "list_spans") == 0) {
        for (int n = 0; n < SPAN_COUNT; n++)
            printf("%s\t%s\t%u\t%" PRIu32 "\n", spans[n].function, spans[n].what, spans[n].calls, spans[n].calls * spans[n].ticks);
    } else {
        fprintf(stderr, "host check SEED COUNT | host measure TIMES | host single EVENT TIMES | host list | host spans TIMES MOST | host list_spans\n");
        return 2;
    }
    return 0;
}
