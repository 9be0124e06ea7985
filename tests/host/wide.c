/*
 * Offsets, levels, jumpers, zero scale and the channels of a scan are 32 bits wide: none is cut to a byte before it is judged. Refused events leave record and memories, compared
 * as bytes, and each comes in its place of the check order: 2, 1, then 3 or 5, then the others.
 */
#include "record.h"

static uint16_t memory[COWRIESTEP_MEMORY_LENGTH];
static uint8_t eeprom[COWRIESTEP_EEPROM_LENGTH];
static struct dmm32_board board;

#define LENT &board, memory, COWRIESTEP_MEMORY_LENGTH, eeprom, COWRIESTEP_EEPROM_LENGTH
#define SHORT &board, memory, COWRIESTEP_MEMORY_LENGTH - 1, eeprom, COWRIESTEP_EEPROM_LENGTH
#define REFUSED(n) (UINT32_C(0x60000000) + (n) * UINT32_C(0x1000000))

/* above 15; many are below 16 in their low byte or their low half */
static const uint32_t wide[] = { 16, 17, 31, 128, 240, 255, 256, 257, 259, 260, 261, 263, 264, 268, 270, 271, 272, 511, 4096, 65535, 65536,
    65541, 65551, 0x1000000, 0x100000F, 0x7FFFFFFF, 0x80000000, 0x80000004, 0x8000000F, 0xFFFFFF00, 0xFFFFFF0F, 0xFFFFFFFF };
enum { WIDE = sizeof wide / sizeof *wide };

static struct dmm32_board kept;
static uint16_t kept_memory[COWRIESTEP_MEMORY_LENGTH];
static uint8_t kept_eeprom[COWRIESTEP_EEPROM_LENGTH];

static void keep(void) {
    kept = board;
    memcpy(kept_memory, memory, sizeof memory);
    memcpy(kept_eeprom, eeprom, sizeof eeprom);
}

static void refused(const char *what, uint32_t answer, uint32_t number) {
    expect("wide.c", what, answer, REFUSED(number));
    expect("wide.c", "a record after a refusal", memcmp(&board, &kept, sizeof board) != 0, 0);
    expect("wide.c", "a memory after a refusal", memcmp(memory, kept_memory, sizeof memory) != 0, 0);
    expect("wide.c", "an EEPROM after a refusal", memcmp(eeprom, kept_eeprom, sizeof eeprom) != 0, 0);
}

static void done(const char *what, uint32_t answer) { expect("wide.c", what, answer, 0); }

/* every wide number at every event that has one */
static void all_refused(void) {
    keep();
    for (unsigned i = 0; i < WIDE; i++) {
        refused("a write at a wide offset", dmm32_write_byte(LENT, wide[i], 0xA5), 3);
        refused("a read at a wide offset", dmm32_read_byte(LENT, wide[i]), 3);
        refused("a word read at a wide offset", dmm32_read_word(LENT, wide[i]), 3);
        refused("wide DIN levels", dmm32_din(LENT, wide[i]), 5);
        refused("2 before 3", dmm32_write_byte(SHORT, wide[i], 0), 2);
        refused("2 before 3", dmm32_read_byte(SHORT, wide[i]), 2);
        refused("2 before 3", dmm32_read_word(SHORT, wide[i]), 2);
        refused("2 before 5", dmm32_din(SHORT, wide[i]), 2);
    }
    board.converter.clken = 2;
    keep();
    for (unsigned i = 0; i < WIDE; i++) {
        refused("1 before 3", dmm32_write_byte(LENT, wide[i], 0), 1);
        refused("1 before 3", dmm32_read_byte(LENT, wide[i]), 1);
        refused("1 before 3", dmm32_read_word(LENT, wide[i]), 1);
        refused("1 before 5", dmm32_din(LENT, wide[i]), 1);
        refused("2 before 1", dmm32_din(SHORT, wide[i]), 2);
    }
    board.converter.clken = 0;
}

/* on each page, with a sample held, DACBUSY and a transfer: a cut offset would be done, or be refused by 6 or 7 */
static void pages(void) {
    done("a trigger", dmm32_write_byte(LENT, 0, 0));
    done("an end", dmm32_conversion_end(LENT, 1234));
    for (uint8_t page = 0; page < 4; page++) {
        done("a page", dmm32_write_byte(LENT, 8, page));
        all_refused();
    }
    done("a transfer", dmm32_write_byte(LENT, 14, 0x08));
    done("a load", dmm32_write_byte(LENT, 5, 0));
    all_refused();
    done("page 2", dmm32_write_byte(LENT, 8, 2));
    keep();
    refused("a read of 15 on page 2", dmm32_read_byte(LENT, 15), 7);
    refused("a read of 271 on page 2", dmm32_read_byte(LENT, 271), 3);
    refused("a write of 5 while DACBUSY", dmm32_write_byte(LENT, 5, 0), 6);
    refused("a write of 261 while DACBUSY", dmm32_write_byte(LENT, 261, 0), 3);
    expect("wide.c", "the sample", dmm32_read_word(LENT, 0), 0x40000000 + 1234);
    /* with nothing there a word read elsewhere is 3 all the same */
    expect("wide.c", "an empty memory", dmm32_read_word(LENT, 0), 0x8000FFFF);
    all_refused();
}

/* 0 is low, any other number high: with DINTE a rise sets DINT, and the pin is 1 */
static void latch(void) {
    done("DINTE", dmm32_write_byte(LENT, 9, 0x40));
    for (unsigned i = 0; i < WIDE + 2; i++) {
        uint32_t level = i < 2 ? i + 1 : wide[i - 2];
        done("a low Latch", dmm32_latch(LENT, 0));
        expect("wide.c", "a low Latch", board.pins.latch, 0);
        done("INTRST", dmm32_write_byte(LENT, 8, 0x08));
        done("a high Latch", dmm32_latch(LENT, level));
        expect("wide.c", "a high Latch", board.pins.latch, 1);
        expect("wide.c", "DINT", board.requests.flags.dint, 1);
        done("INTRST", dmm32_write_byte(LENT, 8, 0x08));
        done("a Latch that stays high", dmm32_latch(LENT, level));
        expect("wide.c", "DINT", board.requests.flags.dint, 0);
    }
}

/* jumpers above 3 stay in wiring.inputs, 255 for any above; any zero scale but 0 is 1, and the outputs are 0 */
static void fresh(void) {
    for (unsigned i = 0; i < WIDE + 8; i++) {
        uint32_t number = i < 8 ? i : wide[i - 8];
        struct dmm32_board want = dmm32_fresh(COWRIESTEP_JUMPERS_A, 0), got = dmm32_fresh(number, 0);
        want.wiring.inputs = number > 255 ? 255 : (uint8_t)number;
        expect("wide.c", "a fresh record with wide jumpers", memcmp(&got, &want, sizeof got) != 0, 0);
        expect("wide.c", "whether it works", dmm32_is_working(got, memory, COWRIESTEP_MEMORY_LENGTH), number <= 3);
        want = dmm32_fresh(COWRIESTEP_JUMPERS_D, 0);
        got = dmm32_fresh(COWRIESTEP_JUMPERS_D, number);
        want.wiring.zeroscale = number != 0;
        if (number != 0) want.outputs.codes = (struct dmm32_codes){ 0, 0, 0, 0 };
        expect("wide.c", "a fresh record with a wide zero scale", memcmp(&got, &want, sizeof got) != 0, 0);
        expect("wide.c", "whether it works", dmm32_is_working(got, memory, COWRIESTEP_MEMORY_LENGTH), 1);
    }
}

/* the channels of a scan: none is cut to a byte, by which 256 to 258 would be 0 to 2 */
static void scans(void) {
    static const int16_t samples[9];
    expect("wide.c", "whole scans of 0 to 2", (int64_t)dmm32_whole_scans(samples, 9, 0, 2), 9);
    for (unsigned i = 0; i < WIDE; i++)
        if (wide[i] > 31) {
            expect("wide.c", "whole scans up to a wide channel", (int64_t)dmm32_whole_scans(samples, 9, 0, wide[i]), 0);
            expect("wide.c", "whole scans from a wide channel", (int64_t)dmm32_whole_scans(samples, 9, wide[i], 2), 0);
            expect("wide.c", "whole scans of wide channels", (int64_t)dmm32_whole_scans(samples, 9, wide[i], wide[i] + 2), 0);
        }
}

int main(void) {
    board = dmm32_fresh(COWRIESTEP_JUMPERS_A, 0);
    done("fresh stores", dmm32_fresh_stores(memory, COWRIESTEP_MEMORY_LENGTH, eeprom, COWRIESTEP_EEPROM_LENGTH));
    fresh();
    pages();
    latch();
    scans();
    printf("wide.c: %ld answers and records compared, %ld differ\n", compared, differ);
    return differ != 0;
}
