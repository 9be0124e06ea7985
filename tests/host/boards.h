/* For the C hosts: random boards that are working boards, with counters at their ends, dividers before their pulses and samples anywhere on the circle. */
#ifndef BOARDS_H
#define BOARDS_H

#include "time.h"

static inline uint16_t random_count(void) { return (uint16_t)(below(2) ? 2 + below(5) : below(2) ? below(60) : below(4) ? 65536 - below(8) : below(65536)); }

static inline void random_counter(struct dmm32_counter *c, int runs) {
    static const uint8_t modes[] = { 0, 4, 12 };
    struct dmm32_count *k = &c->count;
    c->control = below(8) || runs ? (uint8_t)((1 + below(3)) << 4 | modes[runs ? 1 + below(2) : below(3)]) : 0;
    c->trigger = below(8) == 0;
    k->count_register = random_count();
    k->element = below(2) ? random_count() : below(2) ? k->count_register : (uint16_t)below(4);
    k->out = c->control == 0 || below(4) != 0;
    k->waiting = below(8) == 0;
    k->loaded = runs || below(8) != 0;
    c->bytes = (struct dmm32_counter_bytes){ (uint16_t)below(65536), (uint8_t)below(2), (uint8_t)below(2), (uint8_t)below(256), below(6) == 0 };
    if (c->control & 4 && k->count_register == 1) k->count_register = 2;
}

static inline void random_board(struct lent *l) {
    static const uint16_t helds[] = { 0, 0, 1, 255, 256, 511, 512 };
    struct dmm32_board *b = &l->board;
    int runs = below(2);
    *b = dmm32_fresh(below(4), below(2));
    b->converter = (struct dmm32_converter){ (uint8_t)below(32), (uint8_t)below(32), (uint8_t)below(32), (uint8_t)below(32), below(5) == 0, (uint8_t)below(2), runs || below(2) };
    b->requests = (struct dmm32_requests){ (uint8_t)below(256), (uint8_t)below(2), runs || below(4) != 0, (uint8_t)below(2), (uint8_t)below(2), (uint8_t)below(2),
        { (uint8_t)below(2), (uint8_t)below(2), below(4) == 0 } };
    b->fifo.held = helds[below(sizeof helds / sizeof *helds)];
    b->fifo.place = (uint16_t)(b->fifo.held == 0 || below(2) ? 0 : below(COWRIESTEP_MEMORY_LENGTH));
    b->fifo.ovf = b->fifo.held == COWRIESTEP_MEMORY_LENGTH && below(2);
    b->registers = (struct dmm32_registers){ (uint8_t)below(4), (uint8_t)below(8), (uint8_t)(below(256) & (below(2) ? 255 : 255 - FREQ12)), (uint8_t)below(16) };
    b->outputs.busy = (uint8_t)(below(2) ? below(101) : 0);
    b->outputs.lsb = (uint8_t)below(256);
    b->pins.din = (uint8_t)(below(3) ? 15 : below(16));
    b->pins.latch = (uint8_t)below(2);
    b->clocks.hundred = (uint16_t)(below(3) ? below(100) : 99);
    b->clocks.thousand = (uint16_t)(below(3) ? below(1000) : 999 - below(3));
    random_counter(&b->clocks.timer.counter0, 0);
    random_counter(&b->clocks.timer.counter1, runs);
    random_counter(&b->clocks.timer.counter2, runs);
    for (unsigned i = 0; i < sizeof l->memory / sizeof *l->memory; i++) {
        int held = (i + COWRIESTEP_MEMORY_LENGTH - b->fifo.place) % COWRIESTEP_MEMORY_LENGTH < b->fifo.held;
        l->memory[i] = held || i >= COWRIESTEP_MEMORY_LENGTH ? (uint16_t)below(65536) : 0;
    }
    for (unsigned i = 0; i < sizeof l->eeprom; i++) l->eeprom[i] = (uint8_t)below(256);
}

#endif
