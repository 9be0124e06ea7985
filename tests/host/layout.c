/*
 * The records as the library has them. Sizes and offsets are held at compile time. Then events change the record field by field, each to a value of
 * its own, worked out from the specification, and the whole record is compared after each, by fields and as bytes; so is the collector's record
 * through a run of its phases.
 */
#include "record.h"
#include "sizes.h"

static uint16_t memory[COWRIESTEP_MEMORY_LENGTH];
static uint8_t eeprom[COWRIESTEP_EEPROM_LENGTH];
static struct dmm32_board board, want;      /* the board, and what its record is to be */

#define LENT &board, memory, COWRIESTEP_MEMORY_LENGTH, eeprom, COWRIESTEP_EEPROM_LENGTH

static void same(void) {
#define COMPARE(field) expect("layout.c", #field, board.field, want.field);
    BOARD_FIELDS(COMPARE)
#undef COMPARE
    expect("layout.c", "the record's bytes", memcmp(&board, &want, sizeof board) != 0, 0);
}

static void done(uint32_t answer) {
    expect("layout.c", "an answer", answer, 0);
    same();
}

static void put(uint8_t offset, uint8_t value) { done(dmm32_write_byte(LENT, offset, value)); }

static void get(uint8_t offset, uint8_t byte) {
    expect("layout.c", "a byte read", dmm32_read_byte(LENT, offset), 0x20000000 + byte);
    same();
}

static void tick(void) {
    want.clocks.hundred = (want.clocks.hundred + 1) % 100;
    want.clocks.thousand = (want.clocks.thousand + 1) % 1000;
    done(dmm32_tick(LENT));
}

/* "A fresh board is as after RESETA, with counters unprogrammed, dividers at 0, DIN 15, Latch and port pins 0, EEPROM and TrimDAC 0." */
static struct dmm32_board fresh(uint8_t jumpers, uint8_t zero_scale) {
    struct dmm32_board b = { .ports.control = 0x9B, .pins.din = 15, .wiring = { jumpers, zero_scale } };
    uint16_t scale = zero_scale ? 0 : 2048;
    b.outputs.codes = (struct dmm32_codes){ scale, scale, scale, scale };
    b.clocks.timer.counter0.count.out = b.clocks.timer.counter1.count.out = b.clocks.timer.counter2.count.out = 1;
    return b;
}

static void start(uint8_t jumpers, uint8_t zero_scale) {
    board = dmm32_fresh(jumpers, zero_scale);
    want = fresh(jumpers, zero_scale);
    expect("layout.c", "fresh stores", dmm32_fresh_stores(memory, COWRIESTEP_MEMORY_LENGTH, eeprom, COWRIESTEP_EEPROM_LENGTH), 0);
    same();
}

static void conversions(void) {
    start(COWRIESTEP_JUMPERS_A, 0);
    want.converter.low = want.converter.selected = 17; put(2, 17);
    want.converter.high = 19; put(3, 19);
    want.converter.channel = 17; want.converter.selected = 18; want.converter.converting = 1; put(0, 0);
    want.converter.scanen = 1; put(7, 0x04);
    want.converter.scanen = 0; want.requests.fifoen = 1; put(7, 0x08);
    want.requests.fifoen = 0; put(7, 0);
    want.requests.threshold = 123; put(6, 123);
    want.converter.clken = 1; put(9, 0x02);
    want.converter.clken = 0; want.requests.clksel = 1; put(9, 0x01);
    want.requests.clksel = 0; want.requests.dinte = 1; put(9, 0x40);
    want.pins.latch = want.requests.flags.dint = 1; done(dmm32_latch(LENT, 1));
    want.requests.dinte = 0; want.requests.tinte = 1; put(9, 0x20);
    want.requests.tinte = 0; want.requests.adinte = 1; put(9, 0x80);
    want.requests.flags.adint = 1; want.converter.converting = 0; want.fifo.held = 1; done(dmm32_conversion_end(LENT, -2));
    expect("layout.c", "the sample", memory[0], 0xFFFE);
    want.registers.dout = 5; put(1, 5);
    want.registers.counting = 0xE8; put(10, 0xE8);
    want.registers.range = 11; put(11, 11);
    want.pins.din = 9; done(dmm32_din(LENT, 9));
    /* 512 held, and one more end */
    for (unsigned i = 0; i < COWRIESTEP_MEMORY_LENGTH; i++) memory[i] = (uint16_t)(i + 7);
    board.fifo.held = want.fifo.held = 512;
    want.converter.channel = 18; want.converter.selected = 19; want.converter.converting = 1; put(0, 0);
    want.fifo.ovf = 1; want.converter.converting = 0; done(dmm32_conversion_end(LENT, 5));
    want.fifo.ovf = 0; want.fifo.held = 511; want.fifo.place = 1;
    expect("layout.c", "a word read", dmm32_read_word(LENT, 0), 0x40000007);
    same();
}

/* the numbers of the sample memory, as they are to be */
static uint16_t places[COWRIESTEP_MEMORY_LENGTH];

static void same_places(void) { expect("layout.c", "the sample memory", memcmp(memory, places, sizeof memory) != 0, 0); }

/* a sample is stored at a place: channel 0, since low and high are 0 */
static void store(uint16_t code, unsigned at) {
    want.converter.converting = 1; put(0, 0);
    want.converter.converting = 0; want.fifo.held++; places[at] = code; done(dmm32_conversion_end(LENT, (int16_t)code));
    same_places();
}

/* the oldest sample is read, whole or by its high byte, and the next is at a place */
static void leaves(int whole, uint16_t code, uint16_t next) {
    places[want.fifo.place] = 0; want.fifo.held--; want.fifo.place = next;
    if (whole) expect("layout.c", "a word read", dmm32_read_word(LENT, 0), 0x40000000 + code);
    else expect("layout.c", "a high byte", dmm32_read_byte(LENT, 1), 0x20000000 + code / 256);
    same();
    same_places();
}

/* the place of the oldest sample: one on with each that leaves, from 511 to 0; 0 with the last, with FIFORST and with resets */
static void circle(void) {
    static const uint8_t resets[3][2] = { { 7, 0x02 }, { 8, 0x20 }, { 8, 0x10 } };
    start(COWRIESTEP_JUMPERS_A, 0);
    store(0x1111, 0); store(0x2222, 1);
    leaves(1, 0x1111, 1);
    store(0x3333, 2);
    get(0, 0x22);
    leaves(0, 0x2222, 2);
    leaves(1, 0x3333, 0);
    for (unsigned i = 0; i < 512; i++) store((uint16_t)(i + 0x4000), i);
    for (unsigned i = 0; i < 510; i++) leaves(i % 2, (uint16_t)(i + 0x4000), (uint16_t)(i + 1));
    for (unsigned i = 0; i < 3; i++) store((uint16_t)(i + 0x5000), i);
    leaves(1, 0x41FE, 511); leaves(1, 0x41FF, 0); leaves(1, 0x5000, 1); leaves(0, 0x5001, 2); leaves(1, 0x5002, 0);
    for (unsigned i = 0; i < 3; i++) {
        store(0x6661, 0); store(0x6662, 1); store(0x6663, 2);
        leaves(1, 0x6661, 1);
        memset(places, 0, sizeof places); want.fifo = (struct dmm32_fifo){ 0, 0, 0 }; put(resets[i][0], resets[i][1]);
        same_places();
    }
}

/* one counter, its number, the offset of its count and the control word's SC, in mode 0 and then in mode 2; FREQ12 and FREQ0 are 0, so a tick is a clock */
static void counter(struct dmm32_counter *c, uint8_t offset, uint8_t sc, uint16_t count) {
    c->control = 0x30; c->count.out = 0; put(15, sc | 0x30);
    c->bytes.first = count % 256; c->bytes.halfwritten = 1; put(offset, count % 256);
    c->bytes.first = 0; c->bytes.halfwritten = 0; c->count.count_register = count; c->count.waiting = 1; put(offset, count / 256);
}

static void timer(void) {
    start(COWRIESTEP_JUMPERS_A, 0);
    struct dmm32_timer *t = &want.clocks.timer;
    want.requests.tinte = 1; put(9, 0x20);
    want.requests.flags.tint = 1;            /* the first control word makes OUT0 fall */
    counter(&t->counter0, 12, 0x00, 0x1234);
    t->counter0.count.element = 0x1234; t->counter0.count.waiting = 0; t->counter0.count.loaded = 1; tick();
    t->counter0.count.element = 0x1233; tick();
    counter(&t->counter1, 13, 0x40, 0x2345);
    t->counter0.count.element = 0x1232; t->counter1.count.element = 0x2345; t->counter1.count.waiting = 0; t->counter1.count.loaded = 1; tick();
    counter(&t->counter2, 14, 0x80, 0x3456);
    t->counter0.bytes.latch = 0x1232; t->counter0.bytes.latched = 1; put(15, 0x00);
    t->counter0.bytes.halfread = 1; get(12, 0x32);
    t->counter1.bytes.latch = 0x2345; t->counter1.bytes.latched = 1; put(15, 0x40);
    t->counter1.bytes.halfread = 1; get(13, 0x45);
    /* counter 1 again, in mode 2: OUT1 rises; then mode 0: it falls, which is a clock for counter 2 */
    t->counter1 = (struct dmm32_counter){ .control = 0x34, .count.out = 1 }; put(15, 0x74);
    t->counter1 = (struct dmm32_counter){ .control = 0x30 };
    t->counter2.count.element = 0x3456; t->counter2.count.waiting = 0; t->counter2.count.loaded = 1; put(15, 0x70);
    t->counter2.bytes.latch = 0x3456; t->counter2.bytes.latched = 1; put(15, 0x80);
    t->counter2.bytes.halfread = 1; get(14, 0x56);
    /* mode 2 in all three, with gates that fall and rise: GT0EN and GT12EN, DIN1 and DIN2 */
    t->counter0 = t->counter1 = t->counter2 = (struct dmm32_counter){ .control = 0x34, .count.out = 1 };
    expect("layout.c", "a control word", dmm32_write_byte(LENT, 15, 0x34), 0);
    expect("layout.c", "a control word", dmm32_write_byte(LENT, 15, 0x74), 0);
    put(15, 0xB4);
    want.registers.counting = 0x05; put(10, 0x05);
    want.pins.din = 9; done(dmm32_din(LENT, 9));
    want.pins.din = 11; t->counter0.trigger = 1; done(dmm32_din(LENT, 11));
    want.pins.din = 15; t->counter1.trigger = t->counter2.trigger = 1; done(dmm32_din(LENT, 15));
}

static void outputs(void) {
    start(COWRIESTEP_JUMPERS_C, 1);
    uint16_t *codes[4] = { &want.outputs.codes.out0, &want.outputs.codes.out1, &want.outputs.codes.out2, &want.outputs.codes.out3 };
    for (unsigned channel = 0; channel < 4; channel++) {
        uint16_t code = (uint16_t)(0x9C1 + 0x101 * channel);
        want.outputs.lsb = code % 256; put(4, code % 256);
        want.outputs.load = (struct dmm32_load){ 1, (uint8_t)channel, code }; want.outputs.busy = 100; put(5, (uint8_t)(channel << 6 | code >> 8));
        while (want.outputs.busy) { want.outputs.busy--; tick(); }
        *codes[channel] = code; get(5, 0);
    }
}

static void pages(void) {
    start(COWRIESTEP_JUMPERS_D, 0);
    want.registers.page = 1; put(8, 1);
    want.ports.pins.a = 0xA1; done(dmm32_port_a_pins(LENT, 0xA1));
    want.ports.pins.b = 0xB2; done(dmm32_port_b_pins(LENT, 0xB2));
    want.ports.pins.c = 0xC3; done(dmm32_port_c_pins(LENT, 0xC3));
    want.ports.control = 0x80; put(15, 0x80);
    want.ports.latches.a = 0x1A; put(12, 0x1A);
    want.ports.latches.b = 0x2B; put(13, 0x2B);
    want.ports.latches.c = 0x3C; put(14, 0x3C);
    want.registers.page = 3; put(8, 3);
    want.calibration.key = 1; put(15, 0xA5);
    for (uint8_t i = 0; i < 8; i++) {
        want.calibration.value = 0x71 + i; put(12, 0x71 + i);
        want.calibration.address = 0x40 + i; put(13, 0x40 + i);
        want.calibration.transfer = 4; want.calibration.cmuxen = i % 2; put(14, i % 2 ? 0x18 : 0x08);
        want.calibration.transfer = 0; want.calibration.trim[i] = 0x71 + i; done(dmm32_transfer_end(LENT));
    }
    want.calibration.transfer = 2; want.calibration.cmuxen = 0; put(14, 0x80);
    want.calibration.transfer = 0; done(dmm32_transfer_end(LENT));
    expect("layout.c", "the EEPROM's byte", eeprom[0x47], 0x78);
    want.calibration.transfer = 3; put(14, 0x20);
    want.calibration.transfer = 0; for (unsigned i = 0; i < 8; i++) want.calibration.trim[i] = 0;
    done(dmm32_transfer_end(LENT));
}

static void collector(void) {
    struct dmm32_settings settings = { .low = 21, .high = 22, .jumpers = COWRIESTEP_JUMPERS_D, .range = 13, .clock = 9, .limit = 0x0123 };
    struct dmm32_start s = dmm32_collector_start(settings);
    struct dmm32_collector c = s.collector;
    expect("layout.c", "start", s.refusal, 0);
    expect("layout.c", "low", c.settings.low, 21);
    expect("layout.c", "high", c.settings.high, 22);
    expect("layout.c", "jumpers", c.settings.jumpers, 3);
    expect("layout.c", "range", c.settings.range, 13);
    expect("layout.c", "clock", c.settings.clock, 9);
    expect("layout.c", "limit", c.settings.limit, 0x0123);
    expect("layout.c", "next", c.next, 21);
    struct dmm32_start started = { { settings, 0, 21, 0, 0 }, 0 };
    expect("layout.c", "the bytes of a start", memcmp(&s, &started, sizeof s) != 0, 0);
    /* a drain with 0x0102 word reads left: the sample leaves, and one less is left */
    c.phase = 9; c.next = 22; c.polls = 0x0122; c.left = 0x0102;
    expect("layout.c", "fit", dmm32_collector_is_fit(c), 1);
    struct dmm32_taken t = dmm32_collector_take(c, (struct dmm32_bus_answer){ 0xC560, COWRIESTEP_BROUGHT_NUMBER, 14 });
    expect("layout.c", "handed", t.handed, COWRIESTEP_HANDED_SAMPLE);
    expect("layout.c", "refusal", t.refusal, 0);
    expect("layout.c", "polls", t.polls, 0x0122);
    expect("layout.c", "the sample's channel", t.sample.channel, 22);
    expect("layout.c", "the sample's code", t.sample.code, -15008);
    expect("layout.c", "phase", t.collector.phase, 9);
    expect("layout.c", "next", t.collector.next, 21);
    expect("layout.c", "polls", t.collector.polls, 0x0122);
    expect("layout.c", "left", t.collector.left, 0x0101);
    expect("layout.c", "limit", t.collector.settings.limit, 0x0123);
    struct dmm32_taken whole = { { settings, 9, 21, 0x0122, 0x0101 }, 0x0122, COWRIESTEP_HANDED_SAMPLE, 0, { 22, -15008 } };
    expect("layout.c", "the bytes of what is taken", memcmp(&t, &whole, sizeof t) != 0, 0);
}

int main(void) {
    conversions();
    circle();
    timer();
    outputs();
    pages();
    collector();
    printf("layout.c: %ld fields and answers compared, %ld differ\n", compared, differ);
    return differ != 0;
}
