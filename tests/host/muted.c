/* What dmm32_advance and dmm32_ticks_until refuse, and boards on which no tick can act. */
#include "time.h"

static const uint32_t some_ticks[] = { 0, 1, 2, 1000, 65536, ALL_TICKS };
enum { SOME = sizeof some_ticks / sizeof *some_ticks };

static void refused(const char *what, const struct lent *given, size_t memory_length, size_t eeprom_length, uint32_t number) {
    static struct lent l;
    for (int i = 0; i < SOME && differ == 0; i++) {
        l = *given;
        struct dmm32_advanced a = dmm32_advance(&l.board, l.memory, memory_length, l.eeprom, eeprom_length, some_ticks[i]);
        same(what, a.answer, REFUSED(number));
        same("ticks of a refused advance", a.done, 0);
        same("ticks until a refused advance", dmm32_ticks_until(l.board, l.memory, memory_length, l.eeprom, eeprom_length, some_ticks[i]), 0);
        same("what a refused advance leaves", memcmp(&l, given, sizeof l) != 0, 0);
    }
}

static void lengths(const struct lent *given, int works) {
    static const size_t wrong[][2] = { { 511, 128 }, { 513, 128 }, { 0, 128 }, { 512, 127 }, { 512, 129 }, { 512, 0 }, { 511, 127 }, { 0, 0 }, { 128, 512 - 384 } };
    for (unsigned i = 0; i < sizeof wrong / sizeof *wrong; i++) refused("2", given, wrong[i][0], wrong[i][1], COWRIESTEP_REFUSED_LENGTH);
    if (!works) refused("1", given, COWRIESTEP_MEMORY_LENGTH, COWRIESTEP_EEPROM_LENGTH, COWRIESTEP_REFUSED_RECORD);
}

/* each flag that is none, each field that is beyond what a working board has, a free place that is not 0: first behind the newest, last before the oldest */
static void damaged(const struct lent *given) {
    static struct lent l;
#define DAMAGED(field, value)       \
    l = *given;                     \
    l.board.field = (value);        \
    lengths(&l, 0);
#define FLAG(field) DAMAGED(field, 2) DAMAGED(field, 255)
    BOARD_FLAGS(FLAG)
#undef FLAG
    DAMAGED(converter.low, 32) DAMAGED(converter.high, 32) DAMAGED(converter.selected, 32) DAMAGED(converter.channel, 32)
    DAMAGED(fifo.held, 513) DAMAGED(fifo.place, 512) DAMAGED(fifo.place, 65535) DAMAGED(fifo.place, 5) DAMAGED(registers.page, 4) DAMAGED(registers.dout, 8) DAMAGED(registers.range, 16)
    DAMAGED(outputs.codes.out3, 4096) DAMAGED(outputs.load.channel, 4) DAMAGED(outputs.load.code, 4096) DAMAGED(outputs.busy, 101)
    DAMAGED(clocks.timer.counter0.control, 1) DAMAGED(clocks.timer.counter1.control, 0x32) DAMAGED(clocks.timer.counter2.control, 64)
    DAMAGED(clocks.hundred, 100) DAMAGED(clocks.thousand, 1000) DAMAGED(ports.control, 0) DAMAGED(calibration.address, 128)
    DAMAGED(calibration.transfer, 5) DAMAGED(pins.din, 16) DAMAGED(wiring.inputs, 4)
#undef DAMAGED
    const unsigned place = given->board.fifo.place, held = given->board.fifo.held;
    l = *given;
    l.memory[(place + held) % COWRIESTEP_MEMORY_LENGTH] = 1;
    lengths(&l, 0);
    l = *given;
    l.memory[(place + COWRIESTEP_MEMORY_LENGTH - 1) % COWRIESTEP_MEMORY_LENGTH] = 1;
    lengths(&l, 0);
}

/* no tick can act on this board */
static void never(const struct lent *l) {
    until_is(l, 400000000, 400000000);
    until_is(l, ALL_TICKS, ALL_TICKS);
}

static void muted(void) {
    static struct lent l, was;
    l.board = dmm32_fresh(COWRIESTEP_JUMPERS_A, 0);
    struct dmm32_board want = l.board;
    never(&l);
    struct dmm32_advanced a = dmm32_advance(LENT(&l), ALL_TICKS);
    same("the answer of a fresh board", a.answer, 0);
    same("done on a fresh board", a.done, ALL_TICKS);
    want.clocks.hundred = ALL_TICKS % 100;
    want.clocks.thousand = ALL_TICKS % 1000;
    same("a fresh board after all ticks", memcmp(&l.board, &want, sizeof want) != 0, 0);

    /* all counters run with the count 2 */
    static const uint8_t writes[][2] = { { 15, 0x34 }, { 12, 2 }, { 12, 0 }, { 15, 0x74 }, { 13, 2 }, { 13, 0 }, { 15, 0xB4 }, { 14, 2 }, { 14, 0 } };
    for (unsigned i = 0; i < sizeof writes / sizeof *writes; i++) same("a write", dmm32_write_byte(LENT(&l), writes[i][0], writes[i][1]), 0);
    was = l;
    never(&l);
    l.board.requests.clksel = 1;
    never(&l);
    l.board.requests.clksel = 0, l.board.converter.clken = 1;
    never(&l);
    l.board.requests.clksel = 1, l.board.converter.converting = 1;
    never(&l);
    l.board.requests.tinte = 1, l.board.requests.flags.tint = 1;
    never(&l);
    l.board.requests.flags.tint = 0;
    until_is(&l, 1000, 2);
    l.board.converter.converting = 0, l.board.requests.tinte = 0;
    until_is(&l, 1000, 4);
    until_is(&l, 3, 3);

    l = was;
    a = dmm32_advance(LENT(&l), 0);
    same("the answer to no ticks", a.answer, 0);
    same("done of no ticks", a.done, 0);
    same("what no ticks leave", memcmp(&l, &was, sizeof l) != 0, 0);
    until_is(&l, 0, 0);
    lengths(&l, 1);
    damaged(&l);
    /* two samples from place 0 on, in the middle, round the end */
    static const uint16_t places[] = { 0, 300, COWRIESTEP_MEMORY_LENGTH - 1 };
    for (unsigned i = 0; i < sizeof places / sizeof *places; i++) {
        const unsigned next = (places[i] + 1u) % COWRIESTEP_MEMORY_LENGTH;
        l.board.fifo = (struct dmm32_fifo){ .held = 2, .place = places[i] };
        l.memory[places[i]] = 6, l.memory[next] = 7;
        lengths(&l, 1);
        damaged(&l);
        l.memory[places[i]] = l.memory[next] = 0;
    }
    l.board = dmm32_fresh(4, 0);
    refused("1 with jumpers 4", &l, COWRIESTEP_MEMORY_LENGTH, COWRIESTEP_EEPROM_LENGTH, COWRIESTEP_REFUSED_RECORD);
}

int main(void) {
    muted();
    printf("muted.c: %ld answers, records and times compared, %ld differ\n", compared, differ);
    return differ != 0;
}
