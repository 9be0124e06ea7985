/*
 * The Diamond-MM-32-AT board in hand-written C: what the library is measured against.
 *
 * The record, the answers and the functions are those of include/cowriestep.h, and so is what each event does: the lengths and the whole working board
 * are looked at in every event, refusals come in the same order, and what is refused changes nothing. The record is changed where it stands.
 *
 * BASELINE_PREFIX begins the name of each function, so that this text can be linked more than once, compiled in different ways. The functions that do many
 * ticks are there where BASELINE_TIME is defined: what a compiler makes of a single tick then does not depend on the loop.
 */
#include <string.h>

#include "baseline.h"

#define JOIN(prefix, name) prefix##name
#define NAMED(prefix, name) JOIN(prefix, name)
#define BASELINE(name) NAMED(BASELINE_PREFIX, name)

#define DONE UINT32_C(0)
#define BYTE(value) ((uint32_t)COWRIESTEP_BYTE << 29 | (uint32_t)(value))
#define WORD(value) ((uint32_t)COWRIESTEP_WORD << 29 | (uint32_t)(value))
#define REFUSED(number) ((uint32_t)COWRIESTEP_REFUSED << 29 | (uint32_t)(number) << 24)
#define NOTHING ((uint32_t)COWRIESTEP_NOTHING << 29 | UINT32_C(65535))

enum { PLACES = COWRIESTEP_MEMORY_LENGTH, EEPROM_BYTES = COWRIESTEP_EEPROM_LENGTH };

/* Base + 10 */
enum { GT12EN = 1, SRC0 = 2, GT0EN = 4, FREQ0 = 64, FREQ12 = 128 };

/* a counter's control bits: M1 is set in mode 2 and clear in mode 0 */
enum { RATE_GENERATOR = 4, RW_LEAST = 16, RW_MOST = 32, RW_BOTH = 48 };

/* transfers */
enum { NO_TRANSFER, EEPROM_READ, EEPROM_WRITE, RUNCAL, TRIMDAC };

/* ---- the working board */

/* bit n is set where n is a working counter's control: 0, or RW not 0 with mode bits 000, 010 or 110 and BCD 0 */
#define CONTROLS_OF_A_FORMAT (UINT64_C(1) << 0 | UINT64_C(1) << 4 | UINT64_C(1) << 12)
#define CONTROLS (UINT64_C(1) | CONTROLS_OF_A_FORMAT << RW_LEAST | CONTROLS_OF_A_FORMAT << RW_MOST | CONTROLS_OF_A_FORMAT << RW_BOTH)

/* the bits that are 0 in every working board: those that no number in range has, and all but bit 0 of each flag */
#define NO_FLAG 0xFE
#define CLEAR_COUNTER {.control = 0xC1, .trigger = NO_FLAG, .count = {0, 0, NO_FLAG, NO_FLAG, 0xFFFE}, .bytes = {0, NO_FLAG, NO_FLAG, 0, NO_FLAG}}
static const struct dmm32_board clear = {
    .converter = {0xE0, 0xE0, 0xE0, 0xE0, NO_FLAG, NO_FLAG, NO_FLAG},
    .requests = {0, NO_FLAG, NO_FLAG, NO_FLAG, NO_FLAG, NO_FLAG, {NO_FLAG, NO_FLAG, NO_FLAG}},
    .fifo = {0xFC00, 0xFE00, 0xFFFE},
    .registers = {.page = 0xFC, .dout = 0xF8, .range = 0xF0},
    .outputs = {.codes = {0xF000, 0xF000, 0xF000, 0xF000}, .load = {NO_FLAG, 0xFC, 0xF000}, .busy = 0x80},
    .clocks = {.timer = {CLEAR_COUNTER, CLEAR_COUNTER, CLEAR_COUNTER}},
    .calibration = {.address = 0x80, .transfer = 0xF8, .key = NO_FLAG, .cmuxen = NO_FLAG},
    .pins = {0xF0, NO_FLAG},
    .wiring = {0xFC, NO_FLAG},
};

/* eight bytes of a record */
static uint64_t eight(const void *record, size_t offset)
{
    uint64_t bytes;
    memcpy(&bytes, (const char *)record + offset, sizeof bytes);
    return bytes;
}

/* The bits of a record that are to be 0 and are not. */
static uint64_t not_clear(const struct dmm32_board *b)
{
#define AT(field) (eight(b, offsetof(struct dmm32_board, field)) & eight(&clear, offsetof(struct dmm32_board, field)))
    const struct dmm32_timer *t = &b->clocks.timer;
    const struct dmm32_counter *c = &clear.clocks.timer.counter0;
    return AT(converter) | AT(requests.fifoen) | AT(fifo) | AT(registers.counting) | AT(outputs.codes.out3) | AT(calibration.address) | AT(calibration.trim[4])
        | ((eight(&t->counter0, 0) | eight(&t->counter1, 0) | eight(&t->counter2, 0)) & eight(c, 0))
        | ((eight(&t->counter0, 8) | eight(&t->counter1, 8) | eight(&t->counter2, 8)) & eight(c, 8));
#undef AT
}

/* of a counter that has those bits clear */
static bool counter_works(const struct dmm32_counter *c)
{
    if (c->control == 0)
        return c->count.out;
    return CONTROLS >> c->control & 1 && (!(c->control & RATE_GENERATOR) || c->count.count_register != 1);
}

static bool record_works(const struct dmm32_board *b)
{
    return not_clear(b) == 0
        && b->fifo.held <= PLACES && (!b->fifo.ovf || b->fifo.held == PLACES) && (b->fifo.held || !b->fifo.place)
        && b->outputs.busy <= 100
        && counter_works(&b->clocks.timer.counter0) && counter_works(&b->clocks.timer.counter1) && counter_works(&b->clocks.timer.counter2)
        && b->clocks.hundred <= 99 && b->clocks.thousand <= 999
        && (b->ports.control & 0xE4) == 0x80
        && b->calibration.transfer <= TRIMDAC;
}

/* inline: a compiler that calls it, as gcc does with -O2, takes more instructions in every event */
static inline bool are_zero(const uint16_t *places, unsigned count)
{
    static const _Alignas(1024) uint16_t zeros[PLACES];      /* aligned: whether memcmp sees a page's end near depends on the samples' address alone */
    return memcmp(places, zeros, count * sizeof *places) == 0;
}

/* the places from the newest sample on, round to the oldest: one stretch or two */
static inline bool free_places_are_zero(const uint16_t *memory, const struct dmm32_fifo *f)
{
    unsigned end = f->place + f->held;
    if (end >= PLACES)
        return are_zero(memory + (end - PLACES), PLACES - f->held);
    return are_zero(memory + end, PLACES - end) && (f->place == 0 || are_zero(memory, f->place));
}

/* The number by which any event is refused, or 0. */
static unsigned refusal(const struct dmm32_board *b, const uint16_t *memory, size_t memory_length, size_t eeprom_length)
{
    if (memory_length != PLACES || eeprom_length != EEPROM_BYTES)
        return COWRIESTEP_REFUSED_LENGTH;
    if (!record_works(b) || !free_places_are_zero(memory, &b->fifo))
        return COWRIESTEP_REFUSED_RECORD;
    return 0;
}

#define REFUSE_UNFIT(b, memory, memory_length, eeprom_length)                             \
    do {                                                                                 \
        unsigned number = refusal((b), (memory), (memory_length), (eeprom_length));      \
        if (number)                                                                      \
            return REFUSED(number);                                                      \
    } while (0)

/* ---- the sample memory */

static void empty(struct dmm32_board *b, uint16_t *memory)
{
    memset(memory, 0, PLACES * sizeof *memory);
    b->fifo = (struct dmm32_fifo){0};
}

/* As the byte reads show it: all ones where there is none. */
static uint16_t oldest(const struct dmm32_board *b, const uint16_t *memory)
{
    return b->fifo.held ? memory[b->fifo.place] : 0xFFFF;
}

/* The oldest sample leaves, if there is one. */
static void take(struct dmm32_board *b, uint16_t *memory)
{
    if (b->fifo.held == 0)
        return;
    memory[b->fifo.place] = 0;
    b->fifo.place = --b->fifo.held ? (b->fifo.place + 1u) % PLACES : 0;
    b->fifo.ovf = 0;
}

/* ---- conversions */

static void start(struct dmm32_converter *c)
{
    c->channel = c->selected;
    c->selected = c->selected == c->high ? c->low : (c->selected + 1) & 31;
    c->converting = 1;
}

static void trigger(struct dmm32_converter *c)
{
    if (!c->converting)
        start(c);
}

/* ---- the timer */

static void load(struct dmm32_count *k, bool out)
{
    k->element = k->count_register;
    k->out = out;
    k->waiting = 0;
    k->loaded = 1;
}

static void clock_counter(struct dmm32_counter *c, bool gate)
{
    struct dmm32_count *k = &c->count;
    bool rate = c->control & RATE_GENERATOR, triggered = c->trigger;
    if (c->control == 0)
        return;
    c->trigger = 0;
    if (k->waiting || (k->loaded && rate && triggered)) {
        load(k, rate);
    } else if (k->loaded && gate && rate) {
        if (k->element == 1)
            load(k, true);
        else
            k->out = --k->element != 1;
    } else if (k->loaded && gate && !c->bytes.halfwritten) {
        if (--k->element == 0)
            k->out = 1;
    }
}

static bool gate0(const struct dmm32_board *b)
{
    return !(b->registers.counting & GT0EN) || b->pins.din & 2;
}

static bool gate12(const struct dmm32_board *b)
{
    return !(b->registers.counting & GT12EN) || b->pins.din & 4;
}

/* What a counter's OUT brings about where it fell since it was `was`. */
static void out0_moved(struct dmm32_board *b, bool was)
{
    if (was && !b->clocks.timer.counter0.count.out && b->requests.tinte)
        b->requests.flags.tint = 1;
}

static void out2_moved(struct dmm32_board *b, bool was)
{
    if (was && !b->clocks.timer.counter2.count.out && b->converter.clken && b->requests.clksel)
        trigger(&b->converter);
}

static void out1_moved(struct dmm32_board *b, bool was)
{
    struct dmm32_timer *t = &b->clocks.timer;
    if (was && !t->counter1.count.out) {
        bool was2 = t->counter2.count.out;
        clock_counter(&t->counter2, gate12(b));
        out2_moved(b, was2);
    }
}

static void clock0(struct dmm32_board *b)
{
    bool was = b->clocks.timer.counter0.count.out;
    clock_counter(&b->clocks.timer.counter0, gate0(b));
    out0_moved(b, was);
}

static void clock1(struct dmm32_board *b)
{
    bool was = b->clocks.timer.counter1.count.out;
    clock_counter(&b->clocks.timer.counter1, gate12(b));
    out1_moved(b, was);
}

static void move_gate(struct dmm32_counter *c, bool was, bool is)
{
    if (was == is || !(c->control & RATE_GENERATOR))
        return;
    if (is)
        c->trigger = 1;
    else
        c->count.out = 1;
}

/* Base + 10 and DIN3-0 become these; the gates follow. */
static void set_gating(struct dmm32_board *b, uint8_t counting, uint8_t din)
{
    bool was0 = gate0(b), was12 = gate12(b);
    b->registers.counting = counting;
    b->pins.din = din;
    move_gate(&b->clocks.timer.counter0, was0, gate0(b));
    move_gate(&b->clocks.timer.counter1, was12, gate12(b));
    move_gate(&b->clocks.timer.counter2, was12, gate12(b));
}

static struct dmm32_counter *counter(struct dmm32_board *b, unsigned n)
{
    struct dmm32_timer *t = &b->clocks.timer;
    return n == 0 ? &t->counter0 : n == 1 ? &t->counter1 : &t->counter2;
}

static void out_moved(struct dmm32_board *b, unsigned n, bool was)
{
    if (n == 0)
        out0_moved(b, was);
    else if (n == 1)
        out1_moved(b, was);
    else
        out2_moved(b, was);
}

static uint32_t write_count(struct dmm32_board *b, unsigned n, uint8_t value)
{
    struct dmm32_counter *c = counter(b, n);
    bool rate = c->control & RATE_GENERATOR, was = c->count.out;
    unsigned whole;
    if (c->control == 0)
        return REFUSED(COWRIESTEP_REFUSED_NOT_MODELLED);
    if ((c->control & RW_BOTH) == RW_BOTH && !c->bytes.halfwritten) {
        c->bytes.first = value;
        c->bytes.halfwritten = 1;
        if (!rate)
            c->count.out = 0;
        out_moved(b, n, was);
        return DONE;
    }
    if ((c->control & RW_BOTH) == RW_BOTH)
        whole = c->bytes.first + value * 256u;
    else
        whole = c->control & RW_LEAST ? value : value * 256u;
    if (rate && whole == 1)
        return REFUSED(COWRIESTEP_REFUSED_NOT_MODELLED);
    c->count.count_register = (uint16_t)whole;
    c->count.waiting = !rate || !c->count.loaded;
    c->bytes.first = 0;
    c->bytes.halfwritten = 0;
    if (!rate)
        c->count.out = 0;
    out_moved(b, n, was);
    return DONE;
}

static uint32_t write_control_word(struct dmm32_board *b, uint8_t word)
{
    unsigned n = word >> 6, control = word & 63;
    if (n == 3)
        return REFUSED(COWRIESTEP_REFUSED_NOT_MODELLED);
    struct dmm32_counter *c = counter(b, n);
    bool was = c->count.out;
    if ((control & RW_BOTH) == 0) {
        if (c->control != 0 && !c->bytes.latched) {
            c->bytes.latch = c->count.element;
            c->bytes.latched = 1;
        }
        return DONE;
    }
    if (!(CONTROLS >> control & 1))
        return REFUSED(COWRIESTEP_REFUSED_NOT_MODELLED);
    memset(c, 0, sizeof *c);
    c->control = (uint8_t)control;
    c->count.out = (control & RATE_GENERATOR) != 0;
    out_moved(b, n, was);
    return DONE;
}

static uint8_t read_count(struct dmm32_counter *c)
{
    unsigned count = c->bytes.latched ? c->bytes.latch : c->count.element;
    unsigned format = c->control & RW_BOTH;
    if (c->control == 0)
        return 0;
    if (format == RW_BOTH && !c->bytes.halfread) {
        c->bytes.halfread = 1;
        return (uint8_t)count;
    }
    c->bytes.latch = 0;
    c->bytes.latched = 0;
    c->bytes.halfread = 0;
    return (uint8_t)(format == RW_LEAST ? count : count >> 8);
}

/* ---- ports */

static uint8_t port_byte(unsigned input_lines, uint8_t pins, uint8_t latch)
{
    return (uint8_t)((pins & input_lines) | (latch & ~input_lines));
}

static uint8_t read_port(const struct dmm32_ports *p, unsigned offset)
{
    unsigned control = p->control;
    if (offset == 12)
        return control & 16 ? p->pins.a : p->latches.a;
    if (offset == 13)
        return control & 2 ? p->pins.b : p->latches.b;
    return port_byte((control & 8 ? 0xF0u : 0) | (control & 1 ? 0x0Fu : 0), p->pins.c, p->latches.c);
}

static uint32_t write_port(struct dmm32_ports *p, unsigned offset, uint8_t value)
{
    if (offset == 12) {
        p->latches.a = value;
    } else if (offset == 13) {
        p->latches.b = value;
    } else if (offset == 14) {
        p->latches.c = value;
    } else {
        if ((value & 0xE4) != 0x80)
            return REFUSED(COWRIESTEP_REFUSED_NOT_MODELLED);
        p->control = value;
        memset(&p->latches, 0, sizeof p->latches);
    }
    return DONE;
}

/* ---- calibration */

static uint32_t write_command(struct dmm32_calibration *c, uint8_t value)
{
    unsigned commands = value & 0xA8;
    if (commands & (commands - 1))
        return REFUSED(COWRIESTEP_REFUSED_COMMANDS);
    if (commands == 0x80 && !c->key)
        return REFUSED(COWRIESTEP_REFUSED_NO_KEY);
    if (commands == 0x80)
        c->transfer = value & 0x40 ? EEPROM_READ : EEPROM_WRITE;
    else
        c->transfer = commands == 0x20 ? RUNCAL : commands == 0x08 ? TRIMDAC : NO_TRANSFER;
    c->cmuxen = value >> 4 & 1;
    return DONE;
}

static uint32_t write_calibration(struct dmm32_calibration *c, unsigned offset, uint8_t value)
{
    if (offset == 15) {
        c->key = value == 0xA5;
        return DONE;
    }
    if (c->transfer != NO_TRANSFER)
        return REFUSED(COWRIESTEP_REFUSED_BUSY);
    if (offset == 14)
        return write_command(c, value);
    if (offset == 12)
        c->value = value;
    else
        c->address = value & 127;
    return DONE;
}

static uint8_t read_calibration(const struct dmm32_calibration *c, unsigned offset)
{
    if (offset == 12)
        return c->value;
    if (offset == 13)
        return c->address;
    if (offset == 15)
        return 34;
    unsigned busy = c->transfer == TRIMDAC ? 0x48 : c->transfer != NO_TRANSFER ? 0x20 : 0;
    return (uint8_t)(busy | (unsigned)c->cmuxen << 4);
}

/* ---- the registers */

static void set_outputs(struct dmm32_codes *codes, uint16_t code)
{
    codes->out0 = codes->out1 = codes->out2 = codes->out3 = code;
}

static void reset(struct dmm32_board *b, uint16_t *memory, bool analog)
{
    set_gating(b, 0, b->pins.din);
    memset(&b->converter, 0, sizeof b->converter);
    memset(&b->requests, 0, sizeof b->requests);
    memset(&b->registers, 0, sizeof b->registers);
    memset(&b->outputs.load, 0, sizeof b->outputs.load);
    b->outputs.lsb = 0;
    b->outputs.busy = 0;
    if (analog)
        set_outputs(&b->outputs.codes, b->wiring.zeroscale ? 0 : 2048);
    b->ports.control = 0x9B;
    memset(&b->ports.latches, 0, sizeof b->ports.latches);
    b->calibration.value = 0;
    b->calibration.address = 0;
    b->calibration.transfer = NO_TRANSFER;
    b->calibration.key = 0;
    b->calibration.cmuxen = 0;
    empty(b, memory);
}

static void write_miscellaneous(struct dmm32_board *b, uint16_t *memory, uint8_t value)
{
    if (value & 0x30) {
        reset(b, memory, value & 0x20);
    } else if (value & 0x08) {
        memset(&b->requests.flags, 0, sizeof b->requests.flags);
    } else {
        b->registers.page = value & 3;
        b->calibration.key = 0;
    }
}

static void write_operation(struct dmm32_board *b, uint8_t value)
{
    b->requests.adinte = value >> 7;
    b->requests.dinte = value >> 6 & 1;
    b->requests.tinte = value >> 5 & 1;
    b->converter.clken = value >> 1 & 1;
    b->requests.clksel = value & 1;
}

static uint32_t write_output(struct dmm32_outputs *o, unsigned offset, uint8_t value)
{
    if (o->busy)
        return REFUSED(COWRIESTEP_REFUSED_BUSY);
    if (offset == 4) {
        o->lsb = value;
    } else {
        o->load.loaded = 1;
        o->load.channel = value >> 6;
        o->load.code = (uint16_t)((value & 15u) << 8 | o->lsb);
        o->busy = 100;
    }
    return DONE;
}

static uint32_t write_paged(struct dmm32_board *b, unsigned offset, uint8_t value)
{
    switch (b->registers.page) {
    case 0:
        return offset == 15 ? write_control_word(b, value) : write_count(b, offset - 12, value);
    case 1:
        return write_port(&b->ports, offset, value);
    case 2:
        return offset == 15 ? REFUSED(COWRIESTEP_REFUSED_NOT_MODELLED) : DONE;
    default:
        return write_calibration(&b->calibration, offset, value);
    }
}

uint32_t BASELINE(write_byte)(struct dmm32_board *b, uint16_t *memory, size_t memory_length, uint8_t *eeprom, size_t eeprom_length, uint32_t offset, uint8_t value)
{
    (void)eeprom;
    REFUSE_UNFIT(b, memory, memory_length, eeprom_length);
    switch (offset) {
    case 0:
        if (!b->converter.clken)
            trigger(&b->converter);
        return DONE;
    case 1:
        b->registers.dout = value & 7;
        return DONE;
    case 2:
        b->converter.low = b->converter.selected = value & 31;
        return DONE;
    case 3:
        b->converter.high = value & 31;
        b->converter.selected = b->converter.low;
        return DONE;
    case 4:
    case 5:
        return write_output(&b->outputs, offset, value);
    case 6:
        b->requests.threshold = value;
        return DONE;
    case 7:
        b->requests.fifoen = value >> 3 & 1;
        b->converter.scanen = value >> 2 & 1;
        if (value & 2)
            empty(b, memory);
        return DONE;
    case 8:
        write_miscellaneous(b, memory, value);
        return DONE;
    case 9:
        write_operation(b, value);
        return DONE;
    case 10:
        set_gating(b, value, b->pins.din);
        return DONE;
    case 11:
        b->registers.range = value & 15;
        return DONE;
    case 12:
    case 13:
    case 14:
    case 15:
        return write_paged(b, offset, value);
    default:
        return REFUSED(COWRIESTEP_REFUSED_OFFSET);
    }
}

static void update_output(struct dmm32_outputs *o)
{
    if (!o->load.loaded || o->busy)
        return;
    switch (o->load.channel) {
    case 0:
        o->codes.out0 = o->load.code;
        break;
    case 1:
        o->codes.out1 = o->load.code;
        break;
    case 2:
        o->codes.out2 = o->load.code;
        break;
    default:
        o->codes.out3 = o->load.code;
    }
}

static unsigned fifo_status(const struct dmm32_board *b)
{
    unsigned held = b->fifo.held;
    return (unsigned)(held == 0) << 7 | (unsigned)(held >= 256) << 6 | (unsigned)(held == PLACES) << 5 | (unsigned)b->fifo.ovf << 4
        | (unsigned)b->requests.fifoen << 3 | (unsigned)b->converter.scanen << 2 | b->registers.page;
}

static unsigned ad_status(const struct dmm32_board *b)
{
    static const uint8_t single_ended[] = {0x60, 0x00, 0x40, 0x20};
    return (unsigned)b->converter.converting << 7 | single_ended[b->wiring.inputs] | b->converter.selected;
}

static unsigned request_status(const struct dmm32_board *b)
{
    const struct dmm32_flags *f = &b->requests.flags;
    return (unsigned)f->adint << 7 | (unsigned)f->dint << 6 | (unsigned)f->tint << 5 | (unsigned)b->converter.clken << 1 | b->requests.clksel;
}

static uint32_t read_paged(struct dmm32_board *b, unsigned offset)
{
    switch (b->registers.page) {
    case 0:
        return BYTE(offset == 15 ? 0 : read_count(counter(b, offset - 12)));
    case 1:
        return BYTE(offset == 15 ? b->ports.control : read_port(&b->ports, offset));
    case 2:
        return offset == 15 ? REFUSED(COWRIESTEP_REFUSED_NOT_MODELLED) : BYTE(0);
    default:
        return BYTE(read_calibration(&b->calibration, offset));
    }
}

uint32_t BASELINE(read_byte)(struct dmm32_board *b, uint16_t *memory, size_t memory_length, uint8_t *eeprom, size_t eeprom_length, uint32_t offset)
{
    uint16_t sample;
    (void)eeprom;
    REFUSE_UNFIT(b, memory, memory_length, eeprom_length);
    switch (offset) {
    case 0:
        return BYTE(oldest(b, memory) & 255);
    case 1:
        sample = oldest(b, memory);
        take(b, memory);
        return BYTE(sample >> 8);
    case 2:
        return BYTE(b->converter.low);
    case 3:
        return BYTE(b->converter.high);
    case 4:
        return BYTE((unsigned)(b->outputs.busy != 0) << 7 | (unsigned)(b->calibration.transfer != NO_TRANSFER) << 6 | b->pins.din);
    case 5:
        update_output(&b->outputs);
        return BYTE(0);
    case 6:
        return BYTE(b->requests.threshold);
    case 7:
        return BYTE(fifo_status(b));
    case 8:
        return BYTE(ad_status(b));
    case 9:
        return BYTE(request_status(b));
    case 10:
        return BYTE(b->registers.counting);
    case 11:
        return BYTE(b->registers.range);
    case 12:
    case 13:
    case 14:
    case 15:
        return read_paged(b, offset);
    default:
        return REFUSED(COWRIESTEP_REFUSED_OFFSET);
    }
}

uint32_t BASELINE(read_word)(struct dmm32_board *b, uint16_t *memory, size_t memory_length, uint8_t *eeprom, size_t eeprom_length, uint32_t offset)
{
    (void)eeprom;
    REFUSE_UNFIT(b, memory, memory_length, eeprom_length);
    if (offset != 0)
        return REFUSED(COWRIESTEP_REFUSED_OFFSET);
    if (b->fifo.held == 0)
        return NOTHING;
    uint16_t sample = memory[b->fifo.place];
    take(b, memory);
    return WORD(sample);
}

/* ---- the other events */

uint32_t BASELINE(conversion_end)(struct dmm32_board *b, uint16_t *memory, size_t memory_length, uint8_t *eeprom, size_t eeprom_length, int16_t code)
{
    struct dmm32_converter *c = &b->converter;
    (void)eeprom;
    REFUSE_UNFIT(b, memory, memory_length, eeprom_length);
    if (!c->converting)
        return REFUSED(COWRIESTEP_REFUSED_NO_CONVERSION);
    if (b->fifo.held < PLACES)
        memory[(b->fifo.place + b->fifo.held++) % PLACES] = (uint16_t)code;
    else
        b->fifo.ovf = 1;
    if (c->scanen && c->channel != c->high) {
        start(c);
        return DONE;
    }
    c->converting = 0;
    if (b->requests.adinte && (!b->requests.fifoen || b->fifo.held >= 2u * b->requests.threshold))
        b->requests.flags.adint = 1;
    return DONE;
}

uint32_t BASELINE(din)(struct dmm32_board *b, uint16_t *memory, size_t memory_length, uint8_t *eeprom, size_t eeprom_length, uint32_t lines)
{
    (void)eeprom;
    REFUSE_UNFIT(b, memory, memory_length, eeprom_length);
    if (lines > 15)
        return REFUSED(COWRIESTEP_REFUSED_DIN);
    unsigned fallen = b->pins.din & ~lines;
    set_gating(b, b->registers.counting, (uint8_t)lines);
    if (fallen & 1 && b->registers.counting & SRC0)
        clock0(b);
    if (fallen & 8 && b->converter.clken && !b->requests.clksel && gate12(b))
        trigger(&b->converter);
    return DONE;
}

uint32_t BASELINE(latch)(struct dmm32_board *b, uint16_t *memory, size_t memory_length, uint8_t *eeprom, size_t eeprom_length, uint32_t level)
{
    (void)eeprom;
    REFUSE_UNFIT(b, memory, memory_length, eeprom_length);
    if (level && !b->pins.latch && b->requests.dinte)
        b->requests.flags.dint = 1;
    b->pins.latch = level != 0;
    return DONE;
}

uint32_t BASELINE(port_a_pins)(struct dmm32_board *b, uint16_t *memory, size_t memory_length, uint8_t *eeprom, size_t eeprom_length, uint8_t pins)
{
    (void)eeprom;
    REFUSE_UNFIT(b, memory, memory_length, eeprom_length);
    b->ports.pins.a = pins;
    return DONE;
}

uint32_t BASELINE(port_b_pins)(struct dmm32_board *b, uint16_t *memory, size_t memory_length, uint8_t *eeprom, size_t eeprom_length, uint8_t pins)
{
    (void)eeprom;
    REFUSE_UNFIT(b, memory, memory_length, eeprom_length);
    b->ports.pins.b = pins;
    return DONE;
}

uint32_t BASELINE(port_c_pins)(struct dmm32_board *b, uint16_t *memory, size_t memory_length, uint8_t *eeprom, size_t eeprom_length, uint8_t pins)
{
    (void)eeprom;
    REFUSE_UNFIT(b, memory, memory_length, eeprom_length);
    b->ports.pins.c = pins;
    return DONE;
}

uint32_t BASELINE(tick)(struct dmm32_board *b, uint16_t *memory, size_t memory_length, uint8_t *eeprom, size_t eeprom_length)
{
    struct dmm32_clocks *k = &b->clocks;
    (void)eeprom;
    REFUSE_UNFIT(b, memory, memory_length, eeprom_length);
    k->hundred = k->hundred < 99 ? k->hundred + 1 : 0;
    k->thousand = k->thousand < 999 ? k->thousand + 1 : 0;
    if (!(b->registers.counting & SRC0) && (!(b->registers.counting & FREQ0) || k->thousand == 0))
        clock0(b);
    if (!(b->registers.counting & FREQ12) || k->hundred == 0)
        clock1(b);
    if (b->outputs.busy)
        b->outputs.busy--;
    return DONE;
}

#ifdef BASELINE_TIME
/* The checks once, then tick after tick where the record stands. */
static struct dmm32_advanced advanced(struct dmm32_board *b, const uint16_t *memory, size_t memory_length, size_t eeprom_length, uint32_t ticks)
{
    unsigned number = refusal(b, memory, memory_length, eeprom_length);
    struct dmm32_clocks *k = &b->clocks;
    uint32_t done = 0;
    if (number)
        return (struct dmm32_advanced){REFUSED(number), 0};
    while (done < ticks) {
        unsigned converting = b->converter.converting, tint = b->requests.flags.tint;
        k->hundred = k->hundred < 99 ? k->hundred + 1 : 0;
        k->thousand = k->thousand < 999 ? k->thousand + 1 : 0;
        if (!(b->registers.counting & SRC0) && (!(b->registers.counting & FREQ0) || k->thousand == 0))
            clock0(b);
        if (!(b->registers.counting & FREQ12) || k->hundred == 0)
            clock1(b);
        if (b->outputs.busy)
            b->outputs.busy--;
        done++;
        if (b->converter.converting > converting || b->requests.flags.tint > tint)
            break;
    }
    return (struct dmm32_advanced){DONE, done};
}

struct dmm32_advanced BASELINE(advance)(struct dmm32_board *b, uint16_t *memory, size_t memory_length, uint8_t *eeprom, size_t eeprom_length, uint32_t ticks)
{
    (void)eeprom;
    return advanced(b, memory, memory_length, eeprom_length, ticks);
}

uint32_t BASELINE(ticks_until)(struct dmm32_board board, const uint16_t *memory, size_t memory_length, const uint8_t *eeprom, size_t eeprom_length, uint32_t most)
{
    (void)eeprom;
    return advanced(&board, memory, memory_length, eeprom_length, most).done;
}
#endif

uint32_t BASELINE(transfer_end)(struct dmm32_board *b, uint16_t *memory, size_t memory_length, uint8_t *eeprom, size_t eeprom_length)
{
    struct dmm32_calibration *c = &b->calibration;
    REFUSE_UNFIT(b, memory, memory_length, eeprom_length);
    switch (c->transfer) {
    case NO_TRANSFER:
        return REFUSED(COWRIESTEP_REFUSED_NO_TRANSFER);
    case EEPROM_READ:
        c->value = eeprom[c->address];
        break;
    case EEPROM_WRITE:
        eeprom[c->address] = c->value;
        break;
    case RUNCAL:
        memcpy(c->trim, eeprom, sizeof c->trim);
        break;
    default:
        c->trim[c->address & 7] = c->value;
    }
    c->transfer = NO_TRANSFER;
    return DONE;
}

/* ---- fresh boards */

struct dmm32_board BASELINE(fresh)(uint32_t jumpers, uint32_t zero_scale)
{
    struct dmm32_board b = {0};
    set_outputs(&b.outputs.codes, zero_scale ? 0 : 2048);
    b.clocks.timer.counter0.count.out = 1;
    b.clocks.timer.counter1.count.out = 1;
    b.clocks.timer.counter2.count.out = 1;
    b.ports.control = 0x9B;
    b.pins.din = 15;
    b.wiring.inputs = jumpers <= 255 ? (uint8_t)jumpers : 255;
    b.wiring.zeroscale = zero_scale != 0;
    return b;
}

uint32_t BASELINE(fresh_stores)(uint16_t *memory, size_t memory_length, uint8_t *eeprom, size_t eeprom_length)
{
    if (memory_length != PLACES || eeprom_length != EEPROM_BYTES)
        return REFUSED(COWRIESTEP_REFUSED_LENGTH);
    memset(memory, 0, PLACES * sizeof *memory);
    memset(eeprom, 0, EEPROM_BYTES);
    return DONE;
}

bool BASELINE(is_working)(struct dmm32_board board, const uint16_t *memory, size_t memory_length)
{
    return memory_length == PLACES && record_works(&board) && free_places_are_zero(memory, &board.fifo);
}
