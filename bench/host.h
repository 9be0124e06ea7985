/* What bench/host.c and bench/tally.c share: the three boards, their states, the benchmark's events and the random ones. */
#ifndef HOST_H
#define HOST_H

#include "baseline.h"

#define NOT_INLINED __attribute__((noinline))

enum { PLACES = COWRIESTEP_MEMORY_LENGTH, EEPROM_BYTES = COWRIESTEP_EEPROM_LENGTH };

struct state {
    struct dmm32_board board;
    uint16_t memory[PLACES];
    uint8_t eeprom[EEPROM_BYTES];
};

/* a state's three stores, to be changed, or with the record by value */
#define STORES(s) &(s)->board, (s)->memory, PLACES, (s)->eeprom, EEPROM_BYTES
#define BORROWED(s) (s)->board, (s)->memory, PLACES, (s)->eeprom, EEPROM_BYTES

#define LENT struct dmm32_board *, uint16_t *, size_t, uint8_t *, size_t
#define KEPT const uint16_t *, size_t, const uint8_t *, size_t
struct calls {
    const char *name;
    struct dmm32_board (*fresh)(uint32_t, uint32_t);
    uint32_t (*fresh_stores)(uint16_t *, size_t, uint8_t *, size_t);
    bool (*is_working)(struct dmm32_board, const uint16_t *, size_t);
    uint32_t (*write_byte)(LENT, uint32_t, uint8_t);
    uint32_t (*read_byte)(LENT, uint32_t);
    uint32_t (*read_word)(LENT, uint32_t);
    uint32_t (*conversion_end)(LENT, int16_t);
    uint32_t (*din)(LENT, uint32_t);
    uint32_t (*latch)(LENT, uint32_t);
    uint32_t (*port_a_pins)(LENT, uint8_t);
    uint32_t (*port_b_pins)(LENT, uint8_t);
    uint32_t (*port_c_pins)(LENT, uint8_t);
    uint32_t (*tick)(LENT);
    struct dmm32_advanced (*advance)(LENT, uint32_t);
    uint32_t (*ticks_until)(struct dmm32_board, KEPT, uint32_t);
    uint32_t (*transfer_end)(LENT);
    uint32_t (*step)(LENT, struct dmm32_event);
    struct dmm32_tally (*note)(struct dmm32_tally, struct dmm32_board, KEPT, struct dmm32_event);
    struct dmm32_tally (*note_ticks)(struct dmm32_tally, struct dmm32_board, KEPT, uint32_t);
    bool (*adds_up)(struct dmm32_tally, struct dmm32_board, struct dmm32_board);
};

enum { BOARDS = 3 };
extern const struct calls boards[BOARDS];

/* an event of the benchmark: the function that makes the call, its set-up, what it answers, what it is */
struct event {
    const char *function;
    void (*setup)(struct state *);
    uint32_t (*run)(const struct calls *, struct state *);
    uint32_t answer;
    const char *what;
};

/* set-ups of bench/host.c */
void set_empty(struct state *s);
void set_256(struct state *s);
void set_converting_511(struct state *s);
void set_counting(struct state *s);
void set_falling_2(struct state *s);
void set_damaged(struct state *s);

/* a random event: kinds from 0 on are those of COWRIESTEP_EVENT_WRITE_BYTE on, 11 is an advance and 12 a ticks_until */
struct happening {
    unsigned kind;
    uint32_t offset, level;
    uint8_t value;
    int16_t code;
    uint32_t ticks;
    size_t memory_length, eeprom_length;
};

void begin_random(uint64_t seed);
unsigned below(unsigned n);
void random_boards(struct state *s);
struct happening random_event(void);
uint32_t as_number(struct dmm32_advanced a);
void check_same(const struct state *s, const uint32_t *answers, const char *what);

/* bench/tally.c */
enum { NOTE_COUNT = 11 };
extern const struct event notes[NOTE_COUNT];
void check_tallies(uint64_t seed, unsigned long count);

#endif
