/*
 * What a host acts on: the interrupt line and dmm32_due after events worked out by hand; what a collector answers where the board refuses its access or has
 * nothing for it; a system reset.
 */
#include "record.h"

static uint16_t memory[COWRIESTEP_MEMORY_LENGTH];
static uint8_t eeprom[COWRIESTEP_EEPROM_LENGTH];
static struct dmm32_board board, before;

#define LENT COWRIESTEP_LENT(&board, memory, eeprom)

static void same(const char *what, int64_t got, int64_t want) { expect("acts.c", what, got, want); }

static void fresh(void) {
    board = dmm32_fresh(COWRIESTEP_JUMPERS_A, 0);
    same("fresh stores", dmm32_fresh_stores(memory, COWRIESTEP_MEMORY_LENGTH, eeprom, COWRIESTEP_EEPROM_LENGTH), 0);
}

/* an event that is done, and what is due after it */
#define AFTER(event, due) (before = board, same(#event, (event), 0), same("due after " #event, dmm32_due(before, board), (due)))
#define WRITE(offset, value) dmm32_write_byte(LENT, offset, value)
#define IN_PROGRESS(channel) (COWRIESTEP_DUE_CONVERSION | UINT32_C(channel) << 16)
#define RUNS(transfer) (COWRIESTEP_DUE_TRANSFER | UINT32_C(transfer) << 24)

/* ---- the interrupt line is up while a flag is 1; a number that is no flag's is not 1 */
static void irq(void) {
    fresh();
    for (unsigned i = 0; i < 27; i++) {
        board.requests.flags = (struct dmm32_flags){ i % 3, i / 3 % 3, i / 9 };
        int up = i % 3 == 1 || i / 3 % 3 == 1 || i / 9 == 1;
        same("the interrupt line", dmm32_irq(board), up);
        same("the interrupt line in what is due", dmm32_due(board, board), up);
    }
}

/* Channels 3 to 5. A trigger begins a conversion of 3; its end, with ADINTE, asks for an interrupt. A scan goes on from an end to the next channel. */
static void conversions(void) {
    fresh();
    AFTER(WRITE(2, 3), 0);
    AFTER(WRITE(3, 5), 0);
    AFTER(WRITE(0, 0), IN_PROGRESS(3));
    AFTER(WRITE(9, 0x80), IN_PROGRESS(3));
    AFTER(dmm32_conversion_end(LENT, -1), COWRIESTEP_DUE_IRQ);
    AFTER(WRITE(8, 0x08), 0);
    AFTER(WRITE(7, 0x04), 0);
    AFTER(WRITE(3, 5), 0);
    AFTER(WRITE(2, 3), 0);
    AFTER(WRITE(0, 0), IN_PROGRESS(3));
    AFTER(dmm32_conversion_end(LENT, 1), IN_PROGRESS(4));
    AFTER(dmm32_conversion_end(LENT, 2), IN_PROGRESS(5));
    AFTER(dmm32_conversion_end(LENT, 3), COWRIESTEP_DUE_IRQ);
    same("the channel of what is due", COWRIESTEP_DUE_CHANNEL(IN_PROGRESS(31)), 31);
}

/* DOUT2-0, and OUT0, high in an unprogrammed counter, on the pin of DOUT0; each output at its update; what does not change is not told. */
static void outputs(void) {
    static const uint32_t bits[4] = { COWRIESTEP_DUE_OUTPUT_0, COWRIESTEP_DUE_OUTPUT_1, COWRIESTEP_DUE_OUTPUT_2, COWRIESTEP_DUE_OUTPUT_3 };
    fresh();
    AFTER(WRITE(1, 6), COWRIESTEP_DUE_DOUT);
    AFTER(WRITE(1, 6), 0);
    AFTER(WRITE(10, 0x10), COWRIESTEP_DUE_DOUT);
    AFTER(WRITE(1, 7), 0);
    AFTER(WRITE(10, 0), 0);
    for (unsigned channel = 0; channel < 4; channel++) {
        AFTER(WRITE(4, 0x34), 0);
        AFTER(WRITE(5, (uint8_t)(channel << 6 | 2)), 0);
        before = board;
        same("ticks of DACBUSY", dmm32_advance(LENT, 100).done, 100);
        same("due after them", dmm32_due(before, board), 0);
        before = board;
        same("the update", COWRIESTEP_KIND(dmm32_read_byte(LENT, 5)), COWRIESTEP_BYTE);
        same("due after the update", dmm32_due(before, board), bits[channel]);
        before = board;
        same("the update again", COWRIESTEP_KIND(dmm32_read_byte(LENT, 5)), COWRIESTEP_BYTE);
        same("due after it", dmm32_due(before, board), 0);
    }
}

/* A port that becomes an output drives its lines; a latch behind an input does not show; upper and lower half of C by themselves. */
static void ports(void) {
    const uint32_t a = COWRIESTEP_DUE_PORT_A, b = COWRIESTEP_DUE_PORT_B, c = COWRIESTEP_DUE_PORT_C;
    fresh();
    AFTER(WRITE(8, 1), 0);
    AFTER(WRITE(12, 0x55), 0);
    AFTER(dmm32_port_a_pins(LENT, 0xAA), 0);
    AFTER(WRITE(15, 0x80), a | b | c);
    AFTER(WRITE(12, 0x1A), a);
    AFTER(WRITE(12, 0x1A), 0);
    AFTER(WRITE(13, 0x2B), b);
    AFTER(WRITE(14, 0x3C), c);
    AFTER(WRITE(15, 0x93), a | b | c);
    AFTER(WRITE(14, 0x0F), 0);
    AFTER(WRITE(14, 0xF0), c);
    AFTER(WRITE(12, 0xFF), 0);
    AFTER(WRITE(15, 0x9B), c);
    AFTER(WRITE(15, 0x99), b);
}

/* EEPROM read and write, RUNCAL and TrimDAC run until their ends; a number that is no transfer's does not run. */
static void transfers(void) {
    fresh();
    AFTER(WRITE(8, 3), 0);
    AFTER(WRITE(15, 0xA5), 0);
    AFTER(WRITE(14, 0xC0), RUNS(1));
    AFTER(dmm32_transfer_end(LENT), 0);
    AFTER(WRITE(14, 0x80), RUNS(2));
    AFTER(dmm32_transfer_end(LENT), 0);
    AFTER(WRITE(14, 0x20), RUNS(3));
    AFTER(dmm32_transfer_end(LENT), 0);
    AFTER(WRITE(14, 0x08), RUNS(4));
    same("the transfer of what is due", COWRIESTEP_DUE_RUNNING(dmm32_due(board, board)), 4);
    board.calibration.transfer = 9;
    board.converter.converting = 2;
    same("due of a damaged record", dmm32_due(board, board), 0);
    board.converter.converting = 1;
    board.converter.channel = 255;
    same("due of another", dmm32_due(board, board), COWRIESTEP_DUE_CONVERSION | UINT32_C(255) << 16);
}

/* ---- the collector told of a refusal, by kind 1 or any from 3 on: the record stays and the number comes back; unfit is 1, stuck 15 */
static void told(struct dmm32_collector c, uint8_t kind, uint8_t refusal, uint8_t number) {
    struct dmm32_taken t = dmm32_collector_take(c, (struct dmm32_bus_answer){ 0x80, kind, refusal });
    struct dmm32_taken want = { c, c.polls, COWRIESTEP_HANDED_REFUSED, number, { 0, 0 } };
    same("what is answered to a refusal", memcmp(&t, &want, sizeof t), 0);
}

static void refusals_told(void) {
    const struct dmm32_settings s = { 8, 15, COWRIESTEP_JUMPERS_A, 0, 0, 3 };
    for (unsigned n = 0; n < 256; n++) {
        uint8_t other = (uint8_t)(3 + n % 253);         /* each kind from 3 to 255 */
        for (uint8_t phase = 0; phase < 10; phase++) {
            told((struct dmm32_collector){ s, phase, 9, 0, 5 }, COWRIESTEP_BROUGHT_REFUSAL, (uint8_t)n, (uint8_t)n);
            told((struct dmm32_collector){ s, phase, 9, 0, 5 }, other, (uint8_t)n, (uint8_t)n);
            told((struct dmm32_collector){ s, phase, 9, 0, 5 }, 255, (uint8_t)n, (uint8_t)n);
        }
        told((struct dmm32_collector){ s, 10, 9, 3, 5 }, COWRIESTEP_BROUGHT_REFUSAL, (uint8_t)n, COWRIESTEP_REFUSED_STUCK);
        told((struct dmm32_collector){ s, 10, 9, 3, 5 }, other, (uint8_t)n, COWRIESTEP_REFUSED_STUCK);
        told((struct dmm32_collector){ s, 11, 9, 2, 5 }, COWRIESTEP_BROUGHT_REFUSAL, (uint8_t)n, COWRIESTEP_REFUSED_RECORD);
        told((struct dmm32_collector){ s, 11, 9, 2, 5 }, other, (uint8_t)n, COWRIESTEP_REFUSED_RECORD);
    }
    fresh();
    uint32_t answer = dmm32_read_word(LENT, 1);
    struct dmm32_bus_answer brought = COWRIESTEP_BROUGHT(answer);
    same("what a refused read brought", brought.kind == COWRIESTEP_BROUGHT_REFUSAL && brought.number == 0, 1);
    same("its number", brought.refusal, COWRIESTEP_REFUSED_OFFSET);
}

/* ---- turns that change nothing: the board refuses, or has nothing where a sample is due, or the collector names no access */
static void unturned(struct dmm32_collector c, size_t memory_length, size_t eeprom_length, uint8_t number) {
    static uint16_t memory_was[COWRIESTEP_MEMORY_LENGTH];
    static uint8_t eeprom_was[COWRIESTEP_EEPROM_LENGTH];
    memcpy(memory_was, memory, sizeof memory);
    memcpy(eeprom_was, eeprom, sizeof eeprom);
    before = board;
    struct dmm32_taken t = dmm32_turn(&board, memory, memory_length, eeprom, eeprom_length, c);
    struct dmm32_taken want = { c, c.polls, COWRIESTEP_HANDED_REFUSED, number, { 0, 0 } };
    same("a turn that is refused", memcmp(&t, &want, sizeof t), 0);
    same("what it leaves", memcmp(&board, &before, sizeof board) || memcmp(memory_was, memory, sizeof memory) || memcmp(eeprom_was, eeprom, sizeof eeprom), 0);
}

static void turns_refused(void) {
    const struct dmm32_settings s = { 0, 7, COWRIESTEP_JUMPERS_A, 0, 0, 3 };
    fresh();
    same("a trigger", WRITE(0, 0), 0);
    for (uint8_t phase = 0; phase < 10; phase++) {
        struct dmm32_collector c = { s, phase, 0, 0, 7 };
        unturned(c, 511, 128, COWRIESTEP_REFUSED_LENGTH);
        unturned(c, 512, 127, COWRIESTEP_REFUSED_LENGTH);
        board.pins.din = 16;
        unturned(c, 512, 128, COWRIESTEP_REFUSED_RECORD);
        board.pins.din = 15;
    }
    for (uint16_t left = 1; left <= 512; left += 73) {
        unturned((struct dmm32_collector){ s, 8, 3, 2, left }, 512, 128, COWRIESTEP_REFUSED_NOTHING);
        unturned((struct dmm32_collector){ s, 9, 3, 2, left }, 512, 128, COWRIESTEP_REFUSED_NOTHING);
    }
    unturned((struct dmm32_collector){ s, 10, 0, 3, 0 }, 512, 128, COWRIESTEP_REFUSED_STUCK);
    unturned((struct dmm32_collector){ s, 11, 0, 0, 0 }, 512, 128, COWRIESTEP_REFUSED_RECORD);
    unturned((struct dmm32_collector){ s, 11, 0, 0, 0 }, 0, 0, COWRIESTEP_REFUSED_RECORD);
}

/* ---- a system reset: from a board with something everywhere, the fresh record but for counters, dividers, pins, TrimDAC and jumpers */
static void system_reset(void) {
    static const uint8_t bytes[][2] = { { 2, 3 }, { 3, 5 }, { 1, 7 }, { 6, 10 }, { 7, 8 }, { 11, 9 }, { 4, 1 }, { 8, 0 }, { 15, 0x34 }, { 12, 5 }, { 12, 0 }, { 8, 1 }, { 15, 0x80 },
        { 12, 0x77 }, { 8, 3 }, { 15, 0xA5 }, { 12, 0x5A }, { 13, 6 }, { 14, 0x80 } };
    fresh();
    board.wiring.zeroscale = 1;
    for (unsigned i = 0; i < sizeof bytes / sizeof *bytes; i++) same("a write", WRITE(bytes[i][0], bytes[i][1]), 0);
    same("the EEPROM's write ends", dmm32_transfer_end(LENT), 0);
    same("a TrimDAC transfer", WRITE(14, 0x08), 0);
    same("it ends", dmm32_transfer_end(LENT), 0);
    same("a load", WRITE(5, 0x42), 0);
    same("ticks", dmm32_advance(LENT, 1234).done, 1234);
    for (int i = 0; i < 3; i++) same("a trigger", WRITE(0, 0), 0), same("an end", dmm32_conversion_end(LENT, (int16_t)(100 + i)), 0);
    same("a trigger", WRITE(0, 0), 0);
    same("the oldest of three samples", dmm32_read_word(LENT, 0), 0x40000064);
    same("an EEPROM read", WRITE(14, 0xC0), 0);
    same("Latch", dmm32_latch(LENT, 1), 0);
    same("pins of port B", dmm32_port_b_pins(LENT, 0xB2), 0);
    struct dmm32_board want = dmm32_fresh(COWRIESTEP_JUMPERS_A, 1);
    want.clocks = board.clocks;
    want.pins = board.pins;
    want.ports.pins = board.ports.pins;
    memcpy(want.calibration.trim, board.calibration.trim, sizeof want.calibration.trim);
    same("the counter before", board.clocks.timer.counter0.count.loaded, 1);
    same("the dividers before", board.clocks.hundred == 34 && board.clocks.thousand == 234, 1);
    same("the TrimDAC before", board.calibration.trim[6], 0x5A);
    same("held before", board.fifo.held, 2);
    same("the place of the oldest before", board.fifo.place, 1);
    same("RESETA", WRITE(8, 0x20), 0);
    same("the record after a system reset", memcmp(&board, &want, sizeof board), 0);
    for (unsigned i = 0; i < COWRIESTEP_MEMORY_LENGTH; i++) same("a number of the memory", memory[i], 0);
    for (unsigned i = 0; i < COWRIESTEP_EEPROM_LENGTH; i++) same("a byte of the EEPROM", eeprom[i], i == 6 ? 0x5A : 0);
}

int main(void) {
    irq();
    conversions();
    outputs();
    ports();
    transfers();
    refusals_told();
    turns_refused();
    system_reset();
    printf("acts.c: %ld answers and records compared, %ld differ\n", compared, differ);
    return differ != 0;
}
