/* Many ticks in one call, beside as many single ticks: random boards, and what dmm32_ticks_until says of them. */
#include "boards.h"

enum { BOARDS = 40000, LONG_BOARDS = 80 };

static long conversions, tint_rises, both, nothing, at_once, frequencies[4], external, gate_low, busy_ended, loads, triggers, half, round_0, converting, ones, samples_round;

/* a counter whose count is 65,536, and stands at its beginning or its end */
static void whole_count(struct dmm32_counter *c) {
    c->control = below(2) ? 0x30 : 0x34;
    c->count = (struct dmm32_count){ 0, (uint16_t)(below(3) - 1), c->control == 0x34, 0, 1 };
    c->bytes.halfwritten = 0;
}

/* 65,536 ticks and some: counters that go round, mostly with nothing that a tick could bring about */
static uint32_t long_board(struct lent *l) {
    struct dmm32_board *b = &l->board;
    whole_count(&b->clocks.timer.counter0);
    whole_count(&b->clocks.timer.counter1);
    if (below(2)) whole_count(&b->clocks.timer.counter2);
    if (below(4)) b->registers.counting = (uint8_t)(b->registers.counting & GT12EN), b->converter.converting = 1, b->requests.tinte = 0;
    return below(3) ? 65530 + below(12) : 131066 + below(12);
}

/* single ticks, up to the first with which there is something to do */
static uint32_t ticked(struct lent *l, uint32_t ticks, int *conversion, int *tint) {
    uint32_t done = 0;
    *conversion = *tint = 0;
    while (done < ticks && !*conversion && !*tint) {
        int was_converting = l->board.converter.converting;
        struct dmm32_flags was = l->board.requests.flags;
        uint32_t answer = dmm32_tick(LENT(l));
        if (answer != 0) same("a tick", answer, 0);
        done++;
        *conversion = !was_converting && l->board.converter.converting;
        *tint = (!was.adint && l->board.requests.flags.adint) || (!was.dint && l->board.requests.flags.dint) || (!was.tint && l->board.requests.flags.tint);
    }
    return done;
}

/* One advance of a board, beside single ticks: the same record, memories and number. */
static void advanced(struct lent *l, uint32_t ticks) {
    static struct lent ticked_one_by_one, all;
    int conversion, tint;
    ticked_one_by_one = all = *l;
    uint32_t done = ticked(&ticked_one_by_one, ticks, &conversion, &tint);
    until_is(l, ticks, done);
    if (done > 0) until_is(l, done - 1, done - 1);
    struct dmm32_advanced a = dmm32_advance(LENT(l), ticks);
    same("the answer", a.answer, 0);
    same("done", a.done, done);
    same("what is left", memcmp(l, &ticked_one_by_one, sizeof *l) != 0, 0);
    if ((conversion || tint) && differ == 0) {
        /* however many ticks are asked for, no more are done */
        until_is(&all, ALL_TICKS, done);
        a = dmm32_advance(LENT(&all), ALL_TICKS);
        same("the answer to all ticks", a.answer, 0);
        same("done of all ticks", a.done, done);
        same("what all ticks leave", memcmp(&all, &ticked_one_by_one, sizeof all) != 0, 0);
    }
#define LEFT(field) if (differ && l->board.field != ticked_one_by_one.board.field) same(#field, l->board.field, ticked_one_by_one.board.field);
    BOARD_FIELDS(LEFT)
#undef LEFT
    if (conversion && tint) both++;
    else if (conversion) conversions++;
    else if (tint) tint_rises++;
    else nothing++;
    at_once += (conversion || tint) && done == 1;
    ones += ticks == 1;
    *l = ticked_one_by_one;
}

static void random_boards(void) {
    static struct lent l;
    for (int i = 0; i < BOARDS + LONG_BOARDS; i++) {
        random_board(&l);
        uint32_t ticks = i < BOARDS ? below(8) == 0 ? below(3) : below(4) ? below(150) : below(8) ? below(1200) : below(8000) : long_board(&l);
        const struct dmm32_board b = l.board;
        const struct dmm32_timer *t = &b.clocks.timer;
        same("whether it works", dmm32_is_working(b, l.memory, COWRIESTEP_MEMORY_LENGTH), 1);
        advanced(&l, ticks);
        busy_ended += b.outputs.busy != 0 && l.board.outputs.busy == 0;
        loads += t->counter1.count.waiting && !l.board.clocks.timer.counter1.count.waiting;
        triggers += t->counter1.trigger && !l.board.clocks.timer.counter1.trigger;
        round_0 += i >= BOARDS && !(t->counter1.control & 4) && !t->counter1.count.out && l.board.clocks.timer.counter1.count.out;
        half += t->counter1.bytes.halfwritten && (t->counter1.control & 52) == 48;
        frequencies[b.registers.counting >> 6]++;
        external += (b.registers.counting & 2) != 0;
        gate_low += b.registers.counting & GT12EN && !(b.pins.din & DIN2);
        converting += b.converter.converting;
        samples_round += b.fifo.place + b.fifo.held > COWRIESTEP_MEMORY_LENGTH;
        /* and on from there: the conversion ends, or goes on; the requests are reset, or stay */
        for (int more = 0; more < 3; more++) {
            if (l.board.converter.converting && below(2)) same("an end", dmm32_conversion_end(LENT(&l), (int16_t)below(65536)), 0);
            if (below(2)) same("INTRST", dmm32_write_byte(LENT(&l), 8, 0x08), 0);
            advanced(&l, below(200));
        }
    }
    printf("strides.c: %d random boards, 4 advances each: stops", BOARDS + LONG_BOARDS);
    occurred(" by a conversion:", conversions);
    occurred(", by TINT:", tint_rises);
    occurred(", by both:", both);
    occurred(", by neither:", nothing);
    occurred("; at the first tick:", at_once);
    occurred("; of 1 tick:", ones);
    occurred("; 10 MHz:", frequencies[0]);
    occurred(", FREQ0:", frequencies[1]);
    occurred(", FREQ12:", frequencies[2]);
    occurred(", both:", frequencies[3]);
    occurred("; SRC0:", external);
    occurred("; GATE low:", gate_low);
    occurred("; DACBUSY ended:", busy_ended);
    occurred("; counts loaded:", loads);
    occurred("; triggers taken:", triggers);
    occurred("; half-written:", half);
    occurred("; counts of 65,536 that ended in mode 0:", round_0);
    occurred("; converting:", converting);
    occurred("; samples round the end:", samples_round);
    printf("\n");
}

int main(void) {
    random_boards();
    printf("strides.c: %ld answers, records and times compared, %ld differ\n", compared, differ);
    return differ != 0;
}
