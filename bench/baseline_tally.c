/*
 * The tally in hand-written C, over the checks and the ticks of bench/baseline.c. A note looks at the board and changes nothing: whether a conversion begins is
 * told by the fields that the event would look at, without doing it. Many ticks are done one after another, on the record that came by value.
 */
#define BASELINE_TIME
#include "baseline.c"

/* A count that would go past its largest stays there. */
static void add(uint64_t *count, uint64_t more)
{
    if (__builtin_add_overflow(*count, more, count))
        *count = UINT64_MAX;
}

/* Whether a clock pulse makes a counter's OUT fall. */
static bool pulse_falls(const struct dmm32_counter *c, bool gate)
{
    const struct dmm32_count *k = &c->count;
    bool rate = c->control & RATE_GENERATOR;
    if (!k->out || c->control == 0)
        return false;
    if (k->waiting || (k->loaded && rate && c->trigger))
        return !rate;
    return rate && k->loaded && gate && k->element == 2;
}

/* Whether a fall of OUT2 begins a conversion. */
static bool heeds_out2(const struct dmm32_board *b)
{
    return b->converter.clken && b->requests.clksel && !b->converter.converting;
}

/* Whether a fall of this counter's OUT makes OUT2 fall. */
static bool reaches_out2(const struct dmm32_board *b, unsigned n)
{
    return n == 2 || (n == 1 && pulse_falls(&b->clocks.timer.counter2, gate12(b)));
}

static bool tick_begins(const struct dmm32_board *b)
{
    if (!heeds_out2(b) || (b->registers.counting & FREQ12 && b->clocks.hundred != 99))
        return false;
    return pulse_falls(&b->clocks.timer.counter1, gate12(b)) && reaches_out2(b, 1);
}

/* A count or a control word of mode 0 takes OUT low; what is refused, and a latch command, leave it. */
static bool timer_write_begins(struct dmm32_board *b, unsigned offset, uint8_t value)
{
    unsigned n = offset == 15 ? value >> 6 : offset - 12;
    if (!heeds_out2(b) || n == 0 || n == 3)
        return false;
    const struct dmm32_counter *c = counter(b, n);
    unsigned control = offset == 15 ? value & 63 : c->control;
    return control & RW_BOTH && CONTROLS >> control & 1 && !(control & RATE_GENERATOR) && c->count.out && reaches_out2(b, n);
}

static bool din_begins(const struct dmm32_board *b, uint32_t lines)
{
    if (lines > 15 || !(b->pins.din & ~lines & 8) || (b->registers.counting & GT12EN && !(lines & 4)))
        return false;
    return b->converter.clken && !b->requests.clksel && !b->converter.converting;
}

static void note_write(struct dmm32_tally *t, struct dmm32_board *b, uint32_t offset, uint8_t value)
{
    switch (offset) {
    case 0:
        add(&t->begun, !b->converter.clken && !b->converter.converting);
        break;
    case 7:
        if (value & 2)
            add(&t->cleared, b->fifo.held);
        break;
    case 8:
        if (value & 0x30) {
            add(&t->cleared, b->fifo.held);
            add(&t->abandoned, b->converter.converting);
        }
        break;
    case 12:
    case 13:
    case 14:
    case 15:
        if (b->registers.page == 0)
            add(&t->begun, timer_write_begins(b, offset, value));
    }
}

static void note_end(struct dmm32_tally *t, const struct dmm32_board *b)
{
    const struct dmm32_converter *c = &b->converter;
    if (!c->converting)
        return;
    add(&t->ended, 1);
    add(&t->lost, b->fifo.held == PLACES);
    add(&t->begun, c->scanen && c->channel != c->high);
}

struct dmm32_tally BASELINE(note)(struct dmm32_tally t, struct dmm32_board b, const uint16_t *memory, size_t memory_length, const uint8_t *eeprom,
    size_t eeprom_length, struct dmm32_event e)
{
    (void)eeprom;
    if (refusal(&b, memory, memory_length, eeprom_length))
        return t;
    switch (e.kind) {
    case COWRIESTEP_EVENT_WRITE_BYTE:
        note_write(&t, &b, e.offset, e.value);
        break;
    case COWRIESTEP_EVENT_READ_BYTE:
        add(&t.read, e.offset == 1 && b.fifo.held);
        break;
    case COWRIESTEP_EVENT_READ_WORD:
        add(&t.read, e.offset == 0 && b.fifo.held);
        break;
    case COWRIESTEP_EVENT_CONVERSION_END:
        note_end(&t, &b);
        break;
    case COWRIESTEP_EVENT_DIN:
        add(&t.begun, din_begins(&b, e.levels));
        break;
    case COWRIESTEP_EVENT_TICK:
        add(&t.begun, tick_begins(&b));
    }
    return t;
}

struct dmm32_tally BASELINE(note_ticks)(struct dmm32_tally t, struct dmm32_board b, const uint16_t *memory, size_t memory_length, const uint8_t *eeprom,
    size_t eeprom_length, uint32_t ticks)
{
    (void)eeprom;
    if (!heeds_out2(&b))
        return t;
    advanced(&b, memory, memory_length, eeprom_length, ticks);
    add(&t.begun, b.converter.converting);
    return t;
}

bool BASELINE(tally_adds_up)(struct dmm32_tally t, struct dmm32_board first, struct dmm32_board now)
{
    typedef unsigned __int128 wide;
    return (wide)t.ended + first.fifo.held == (wide)t.read + now.fifo.held + t.lost + t.cleared
        && (wide)t.begun + (first.converter.converting == 1) == (wide)t.ended + t.abandoned + (now.converter.converting == 1);
}
