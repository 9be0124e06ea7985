/*
 * A tally over time: dmm32_note_ticks before dmm32_advance beside dmm32_note before each tick, worked out by hand and over random boards; and a
 * collector whose accesses are noted before dmm32_turn makes them.
 */
#include "tallies.h"

enum { BOARDS = 12000 };

static const struct dmm32_tally zeros = { 0, 0, 0, 0, 0, 0 };
static struct lent l;
static struct dmm32_tally tally;
static long begun, tints, none, all_refused, already;

static void is(const char *what, int64_t got, int64_t want) { expect("ticks.c", what, got, want); }

static void writes(const uint8_t (*bytes)[2], unsigned number) {
    for (unsigned i = 0; i < number; i++) is("a write", dmm32_write_byte(LENT(&l), bytes[i][0], bytes[i][1]), 0);
}

/* Mode 2: OUT falls with every count-th clock. Counter 1, count 3, is clocked by each tick, counter 2, count 2, by each falling OUT1: OUT2 falls with ticks 6,
   12, 18 .. */
static void program_clock(void) {
    static const uint8_t bytes[][2] = { { 15, 0x54 }, { 13, 3 }, { 15, 0x94 }, { 14, 2 } };
    l = (struct lent){ .board = dmm32_fresh(COWRIESTEP_JUMPERS_A, 0) };
    tally = zeros;
    writes(bytes, 4);
}

/* so many ticks are asked for and so many are done, with so many begun in the tally then */
static void advance(uint32_t ticks, uint32_t done, uint64_t begun_then) {
    tally = dmm32_note_ticks(tally, l.board, STORES(&l), ticks);
    struct dmm32_advanced a = dmm32_advance(LENT(&l), ticks);
    is("the answer to ticks", a.answer, 0);
    is("ticks done", a.done, done);
    is("begun", (int64_t)tally.begun, (int64_t)begun_then);
}

static void end(void) {
    struct dmm32_event e = event_of(COWRIESTEP_EVENT_CONVERSION_END, 5, 0);
    tally = dmm32_note(tally, l.board, STORES(&l), e);
    is("an end", dmm32_step(LENT(&l), e), 0);
}

/* By hand. CLKEN and CLKSEL: what is asked for beyond the tick in which a conversion begins is not done and not counted. */
static void by_hand(void) {
    static const uint8_t clock[][2] = { { 9, 3 } };
    static const uint8_t timer[][2] = { { 15, 0x14 }, { 12, 4 }, { 9, 0x23 } }, together[][2] = { { 15, 0x14 }, { 12, 6 }, { 9, 0x23 } };
    program_clock();
    advance(18, 18, 0);                     /* no trigger without CLKEN */
    writes(clock, 1);
    advance(0, 0, 0);
    advance(5, 5, 0);                       /* ticks 19 to 23 */
    advance(1, 1, 1);                       /* 24 */
    advance(1000, 1000, 1);                 /* OUT2 falls 166 times in a conversion, the last time with tick 1,020 */
    end();
    advance(ALL_TICKS, 2, 2);               /* 1,024 ticks were done: it falls with tick 1,026 */
    end();
    advance(6, 6, 3);
    tallied("ticks.c, by hand", tally, (struct dmm32_tally){ 3, 2, 0, 0, 0, 0 });
    /* counter 0, count 4, with TINTE: OUT0 falls with ticks 4, 8 ..; a stop by TINT counts nothing, and TINT stays until INTRST */
    program_clock();
    writes(timer, 3);
    advance(100, 4, 0);
    advance(100, 2, 1);
    advance(100, 100, 1);
    tallied("ticks.c, TINT by hand", tally, (struct dmm32_tally){ 1, 0, 0, 0, 0, 0 });
    /* with count 6 both come in one tick */
    program_clock();
    writes(together, 3);
    advance(100, 6, 1);
    is("TINT", l.board.requests.flags.tint, 1);
    /* at UINT64_MAX nothing is begun any more, and nothing else moves */
    program_clock();
    writes(clock, 1);
    tally = (struct dmm32_tally){ UINT64_MAX, 1, 2, 3, 4, 5 };
    advance(6, 6, UINT64_MAX);
    tallied("ticks.c, at the end", tally, (struct dmm32_tally){ UINT64_MAX, 1, 2, 3, 4, 5 });
    l = (struct lent){ .board = dmm32_fresh(COWRIESTEP_JUMPERS_A, 0) };
    tallied("ticks.c, a fresh board", dmm32_note_ticks(zeros, l.board, STORES(&l), 1000000), zeros);
}

/* One advance of a random board: the tally is that of as many single ticks, each noted, and nothing is changed by noting. */
static void one(uint32_t ticks, size_t memory_length, size_t eeprom_length) {
    static struct lent before, single;
    before = single = l;
    struct dmm32_tally was = { below(9) + (UINT64_C(1) << 50), below(9), below(9), below(9), below(9), below(9) }, one_by_one = was;
    tally = dmm32_note_ticks(was, l.board, l.memory, memory_length, l.eeprom, eeprom_length, ticks);
    is("what noting leaves", memcmp(&l, &before, sizeof l) != 0, 0);
    struct dmm32_advanced a = dmm32_advance(&l.board, l.memory, memory_length, l.eeprom, eeprom_length, ticks);
    for (uint32_t i = 0; i < a.done; i++) {
        one_by_one = dmm32_note(one_by_one, single.board, STORES(&single), event_of(COWRIESTEP_EVENT_TICK, 0, 0));
        dmm32_step(LENT(&single), event_of(COWRIESTEP_EVENT_TICK, 0, 0));
    }
    is("what single ticks leave", memcmp(&l, &single, sizeof l) != 0, 0);
    tallied("ticks.c, single ticks", tally, one_by_one);
    int conversion = !before.board.converter.converting && l.board.converter.converting;
    int tint = !before.board.requests.flags.tint && l.board.requests.flags.tint;
    was.begun += conversion;
    tallied("ticks.c, what began", tally, was);
    if (a.answer != 0) all_refused++;
    else if (conversion) begun++;
    else if (tint) tints++;
    else none++;
    already += before.board.converter.converting;
    was.begun += conversion;
    if (conversion || tint) tallied("ticks.c, all ticks", dmm32_note_ticks(tally, before.board, STORES(&before), ALL_TICKS), was);
}

static void random_boards(void) {
    for (int i = 0; i < BOARDS; i++) {
        random_board(&l);
        if (below(30) == 0) l.board.converter.clken = 2;
        one(below(8) ? below(150) : below(1200), below(30) ? 512 : below(513) / 512 * 520, below(30) ? 128 : 127);
    }
    printf("ticks.c: %d random boards: stops", BOARDS);
    occurred(" by a conversion:", begun);
    occurred(", by TINT:", tints);
    occurred(", by neither:", none);
    occurred("; refused:", all_refused);
    occurred("; converting:", already);
    printf("\n");
}

/* ---- a collector's turns, each access noted before it is made */
static struct dmm32_collector collector;

static struct dmm32_taken turn(void) {
    struct dmm32_access access = dmm32_collector_access(collector);
    struct dmm32_event event = COWRIESTEP_ACCESS_EVENT(access);
    tally = dmm32_note(tally, l.board, STORES(&l), event);
    struct dmm32_taken t = dmm32_turn(LENT(&l), collector);
    collector = t.collector;
    return t;
}

static void turns(unsigned number) {
    while (number-- > 0) is("a refused turn", turn().refusal, 0);
}

static void conversions(unsigned number) {
    for (uint64_t i = 0; i < number; i++) advance(6, 6, tally.begun + 1), end();
}

/*
 * 5 samples are held when the collector starts: its FIFORST clears them. 3 conversions, each found by a look and read: 8 = 3 + 5. Then 515 more, 3 of them
 * lost; a look finds FF, and 512 are to be read. The guest takes the last of them, so a turn finds nothing, 20, until 3 more come: one is read, and a fourth
 * begins. The next start waits for its end, and clears the 3 that are held then: 527 = 516 + 0 + 3 + 8.
 */
static void collected(void) {
    static const uint8_t clock[][2] = { { 9, 3 } };
    program_clock();
    writes(clock, 1);
    const struct dmm32_board first = l.board;
    conversions(5);
    collector = dmm32_collector_start((struct dmm32_settings){ 3, 5, COWRIESTEP_JUMPERS_A, 8, 1, 10 }).collector;
    turns(7);
    tallied("a start", tally, (struct dmm32_tally){ 5, 5, 0, 0, 0, 5 });
    turns(1);                               /* a look that finds EF */
    for (int i = 0; i < 3; i++) conversions(1), turns(2);
    tallied("three looks and reads", tally, (struct dmm32_tally){ 8, 8, 0, 3, 0, 5 });
    conversions(515);
    turns(1);
    tallied("515 ends", tally, (struct dmm32_tally){ 523, 523, 0, 3, 3, 5 });
    turns(511);
    struct dmm32_event word = event_of(COWRIESTEP_EVENT_READ_WORD, 0, 0);
    tally = dmm32_note(tally, l.board, STORES(&l), word);
    is("the guest's word read", COWRIESTEP_KIND(dmm32_step(LENT(&l), word)), COWRIESTEP_WORD);
    is("a turn that finds nothing", turn().refusal, 20);
    tallied("a drain", tally, (struct dmm32_tally){ 523, 523, 0, 515, 3, 5 });
    conversions(3);
    is("the last sample", turn().handed, COWRIESTEP_HANDED_LAST_SAMPLE);
    advance(6, 6, 527);
    turns(1);                               /* 9 is written 0 */
    turns(1);                               /* STS is 1: the first poll of ten */
    end();
    turns(5);                               /* STS is 0; then 11, FIFORST at 7, 2 and 3 are written */
    tallied("the next start", tally, (struct dmm32_tally){ 527, 527, 0, 516, 3, 8 });
    is("whether it adds up", dmm32_tally_adds_up(tally, first, l.board), 1);
    collector.phase = 11;
    is("the access of an unfit collector", turn().refusal, 1);
    tallied("no access is no event", tally, (struct dmm32_tally){ 527, 527, 0, 516, 3, 8 });
}

int main(void) {
    by_hand();
    random_boards();
    collected();
    printf("ticks.c: %ld counts, answers and records compared, %ld differ\n", compared, differ);
    return differ != 0;
}
