/*
 * Cowriestep: the Diamond-MM-32-AT board as plain C functions. Every function is proved to do what its comment says, for all inputs.
 *
 * Link with the static library that `rt lib` writes in crates/cowriestep: out/libcowriestep.a. dmm32_turn stands in that of crates/cowriestep_turn,
 * libcowriestep_turn.a, and dmm32_step, dmm32_note, dmm32_note_ticks and dmm32_tally_adds_up in that of crates/cowriestep_tally,
 * libcowriestep_tally.a, which a host that uses them links besides.
 * "The manual" is the board's, V2.64, with the data sheet of its 82C54 timer.
 *
 * How a board lives in a host. `board`, `memory` and `eeprom` are the host's; LENT stands for COWRIESTEP_LENT(&board, memory, eeprom).
 *   begin       board = dmm32_fresh(COWRIESTEP_JUMPERS_A, 0); the memory is zeros, the EEPROM zeros or what was kept of it
 *   lend        each access of the guest is one call, and so is what happens at the pins: dmm32_write_byte(LENT, offset, value), dmm32_din(LENT, levels), ..
 *   advance     before each of them, the ticks of the 10 MHz clock that are due: dmm32_advance(LENT, ticks); see "how a host keeps time"
 *   act         after each of them: dmm32_due(before, board) says whether the interrupt line is up, a conversion is in progress, a transfer runs, and which
 *               outputs, ports and DOUT lines now put out something else; dmm32_irq(board) is the interrupt line alone
 *   end         conversions and transfers end when the host says so: dmm32_conversion_end(LENT, code), dmm32_transfer_end(LENT)
 *   reset       a reset of the guest's system is RESETA: dmm32_write_byte(LENT, 8, 0x20); see "how a system reset is done"
 *   collect     a collector on the host's side empties the sample memory: dmm32_turn(LENT, collector), one bus access at a time
 *   count       a tally beside the board says where every sample went: dmm32_note before each event; see "where every sample went"
 *
 * Who owns what. The host keeps one record (struct dmm32_board), a sample memory of 512 numbers and an EEPROM of 128 bytes for each board, and lends
 * all three to a call. The library keeps nothing between calls, allocates nothing and has no state of its own: boards are independent, and calls over
 * different boards may run in different threads. No record has padding: it may be copied, saved and compared as its bytes, and records that come from
 * elsewhere (a snapshot, a damaged page) may be lent as they are, whatever bytes they hold.
 *
 * Every value of every parameter is answered, wrong lengths and damaged records too. The host's own duty is:
 *   - no pointer is null, also where its length is 0; each points to what its type says, aligned as C aligns it, and a length is not more than what is there
 *   - record, sample memory and EEPROM of one call do not overlap
 *   - no other thread uses them during the call
 */
#ifndef COWRIESTEP_H
#define COWRIESTEP_H

#include <stdbool.h>
#include <stddef.h>
#include <stdint.h>

#ifdef __cplusplus
extern "C" {
#endif

/* ---- the lengths of the two memories */

#define COWRIESTEP_MEMORY_LENGTH 512         /* numbers in a sample memory */
#define COWRIESTEP_EEPROM_LENGTH 128         /* bytes in an EEPROM */

/* The five arguments that lend a board: a pointer to its record, its sample memory and its EEPROM, both of full length. */
#define COWRIESTEP_LENT(board, memory, eeprom) (board), (memory), (size_t)COWRIESTEP_MEMORY_LENGTH, (eeprom), (size_t)COWRIESTEP_EEPROM_LENGTH

/* ---- refusals, by the numbers of the specification; 16 is not used. What is refused changes nothing, but for 15 */

#define COWRIESTEP_REFUSED_RECORD 1          /* the record or the sample memory is not a working board's, or a collector's record is unfit */
#define COWRIESTEP_REFUSED_LENGTH 2          /* the sample memory is not 512 long, or the EEPROM not 128 */
#define COWRIESTEP_REFUSED_OFFSET 3          /* an offset above 15, or a word read that is not at offset 0 */
#define COWRIESTEP_REFUSED_NO_CONVERSION 4   /* a conversion end while no conversion is in progress */
#define COWRIESTEP_REFUSED_DIN 5             /* DIN levels above 15 */
#define COWRIESTEP_REFUSED_BUSY 6            /* a write to 4 or 5 while DACBUSY, or on page 3 to 12-14 while a transfer runs */
#define COWRIESTEP_REFUSED_NOT_MODELLED 7    /* a setting that is not modelled: any access to page 2, offset 15; on page 0 a control word for modes 1, 3, 4 or 5,
                                                BCD or read-back, a count for an unprogrammed counter, count 1 in mode 2; on page 1 a control byte with bit 7
                                                clear or a mode bit set */
#define COWRIESTEP_REFUSED_NO_KEY 8          /* an EEPROM command without the key */
#define COWRIESTEP_REFUSED_COMMANDS 9        /* more than one of EE_EN, RUNCAL, TDACEN */
#define COWRIESTEP_REFUSED_NO_TRANSFER 10    /* a transfer end while none runs */
#define COWRIESTEP_REFUSED_CHANNELS 11       /* a range of channels with low above high, or high above 31 */
#define COWRIESTEP_REFUSED_JUMPERS 12        /* a range of channels that includes one the jumpers lack */
#define COWRIESTEP_REFUSED_RANGE_CODE 13     /* an input range code 4 to 7 or above 15 */
#define COWRIESTEP_REFUSED_POLL_LIMIT 14     /* a poll limit of 0 or above 1,000 */
#define COWRIESTEP_REFUSED_STUCK 15          /* STS is still 1 at the last poll: the collector is stuck, and answers 15 from then on */
#define COWRIESTEP_REFUSED_NO_BYTE 17        /* an answer above 255 to a byte read, or nothing */
#define COWRIESTEP_REFUSED_VOLTAGE 18        /* an output voltage below its range, or one whose code is above 4095 */
#define COWRIESTEP_REFUSED_OUTPUT 19         /* an output range or channel that is unknown */
#define COWRIESTEP_REFUSED_NOTHING 20        /* nothing where a sample is due */

/*
 * ---- the answer to an event: one number
 *
 *     bits 31-29   the kind: done, byte, word, refused, nothing
 *     bits 28-24   the number of the refusal; 0 where nothing is refused
 *     bits 23-16   0; read answers by the macros below, since a status may come to stand here
 *     bits 15-0    the byte or the word that was read; 65535 where a word was read and no sample was there; 0 where nothing is read
 *
 * so that no answer can be taken for another: done is 0, the byte 0 is 0x20000000, refusal 1 is 0x61000000, the sample -1 is 0x4000FFFF and a word read of
 * an empty memory 0x8000FFFF.
 */
#define COWRIESTEP_KIND(answer) ((answer) >> 29)
#define COWRIESTEP_REFUSAL(answer) ((answer) >> 24 & 31)
/*
 * Of kinds byte and word, what was read. Of kind nothing, 65535: what a guest's access to an empty memory shows, FF in each byte, as its two byte reads show;
 * the sample -1 has the same number, and the kind alone tells them apart. Of the other kinds, 0.
 */
#define COWRIESTEP_NUMBER(answer) ((uint16_t)((answer) & 65535))

#define COWRIESTEP_DONE 0                    /* done; nothing is read */
#define COWRIESTEP_BYTE 1                    /* a byte was read */
#define COWRIESTEP_WORD 2                    /* a sample was read */
#define COWRIESTEP_REFUSED 3                 /* refused */
#define COWRIESTEP_NOTHING 4                 /* a word was read, and no sample was there */

/*
 * ---- the record of a board. In brackets: what a working board has; where there are none, any value. Otherwise every event is refused by 1.
 * A flag is 1 where it is set and 0 where it is clear, and is nothing else in a working board: [flag].
 */

/* channels and conversions (manual 10, 11.3, 11.4) */
struct dmm32_converter {
    uint8_t low;                             /* low channel, Base + 2 [0-31] */
    uint8_t high;                            /* high channel, Base + 3 [0-31]; it may be below low */
    uint8_t selected;                        /* the channel that the next conversion takes [0-31] */
    uint8_t channel;                         /* the channel of the conversion in progress, or of the last one [0-31] */
    uint8_t converting;                      /* STS: a conversion is in progress [flag] */
    uint8_t scanen;                          /* SCANEN, Base + 7 bit 2 [flag] */
    uint8_t clken;                           /* CLKEN, Base + 9 bit 1 [flag] */
};

/* request flags, as in Base + 9 read: the board asks for an interrupt while one of them is set */
struct dmm32_flags {
    uint8_t adint;                           /* bit 7 [flag] */
    uint8_t dint;                            /* bit 6 [flag] */
    uint8_t tint;                            /* bit 5 [flag] */
};

/* what is requested when (manual 11.1, 11.2) */
struct dmm32_requests {
    uint8_t threshold;                       /* Base + 6: the threshold is twice this byte */
    uint8_t fifoen;                          /* FIFOEN, Base + 7 bit 3 [flag] */
    uint8_t clksel;                          /* CLKSEL, Base + 9 bit 0 [flag] */
    uint8_t adinte;                          /* ADINTE, Base + 9 bit 7 [flag] */
    uint8_t dinte;                           /* DINTE, Base + 9 bit 6 [flag] */
    uint8_t tinte;                           /* TINTE, Base + 9 bit 5 [flag] */
    struct dmm32_flags flags;
};

/*
 * The sample memory's state (manual 11.2). The memory is a circle: place 0 follows place 511. The samples held are `held` numbers from place `place` on, oldest
 * first, round the circle [the other numbers are 0]: sample i, counted from 0, is memory[(place + i) % 512].
 */
struct dmm32_fifo {
    uint16_t held;                           /* samples held [0-512] */
    uint16_t place;                          /* the place of the oldest sample [0-511; 0 where none is held] */
    uint16_t ovf;                            /* OVF: a sample was lost [flag; set only at 512 held] */
};

struct dmm32_registers {
    uint8_t page;                            /* page, Base + 8 bits 1-0 [0-3] */
    uint8_t dout;                            /* DOUT2-0, Base + 1 [0-7] */
    uint8_t counting;                        /* Base + 10 as written: FREQ12, FREQ0, OUT2EN, OUT0EN, RSVD, GT0EN, SRC0, GT12EN */
    uint8_t range;                           /* range code, low four bits of Base + 11 [0-15] */
};

/* the analogue outputs (manual 13, 14) */
struct dmm32_codes {
    uint16_t out0;                           /* what channel 0 puts out [0-4095] */
    uint16_t out1;                           /* channel 1 [0-4095] */
    uint16_t out2;                           /* channel 2 [0-4095] */
    uint16_t out3;                           /* channel 3 [0-4095] */
};

struct dmm32_load {
    uint8_t loaded;                          /* Base + 5 was written since a reset [flag] */
    uint8_t channel;                         /* the channel that it loaded [0-3] */
    uint16_t code;                           /* the code that it loaded [0-4095] */
};

struct dmm32_outputs {
    struct dmm32_codes codes;
    struct dmm32_load load;
    uint8_t lsb;                             /* the holding byte, Base + 4 */
    uint8_t busy;                            /* ticks of DACBUSY that are left [0-100] */
};

/* one counter of the 82C54 (manual 17, 19) */
struct dmm32_count {
    uint16_t count_register;                 /* the count to load, CR; 0 is 65,536 [not 1 in mode 2] */
    uint16_t element;                        /* the count as it stands, CE */
    uint8_t out;                             /* OUT [flag; 1 in an unprogrammed counter] */
    uint8_t waiting;                         /* a whole count was written and is loaded on the next clock pulse [flag] */
    uint16_t loaded;                         /* a count was loaded since the control word [flag] */
};

struct dmm32_counter_bytes {
    uint16_t latch;                          /* the latched count, OL */
    uint8_t latched;                         /* a count is latched [flag] */
    uint8_t halfread;                        /* the low byte of two was read [flag] */
    uint8_t first;                           /* the low byte of two that was written */
    uint8_t halfwritten;                     /* the low byte of two was written [flag] */
};

struct dmm32_counter {
    uint8_t control;                         /* the control word's bits 5-0 as written, RW1 RW0 M2 M1 M0 BCD; 0: unprogrammed
                                                [0, or below 64 with RW not 0, BCD 0 and M2 M1 M0 one of 000, 010, 110] */
    uint8_t trigger;                         /* the flip-flop that a rising GATE sets in mode 2 [flag] */
    struct dmm32_count count;
    struct dmm32_counter_bytes bytes;
};

struct dmm32_timer {
    struct dmm32_counter counter0;
    struct dmm32_counter counter1;
    struct dmm32_counter counter2;
};

struct dmm32_clocks {
    struct dmm32_timer timer;
    uint16_t hundred;                        /* 10 MHz ticks since the last 100 kHz pulse [0-99] */
    uint16_t thousand;                       /* 10 MHz ticks since the last 10 kHz pulse [0-999] */
};

/* a byte for each port of the 82C55 */
struct dmm32_lines {
    uint8_t a;
    uint8_t b;
    uint8_t c;
};

/* the 82C55 in mode 0 (manual 8.2, 16) */
struct dmm32_ports {
    uint8_t control;                         /* the control byte: bit 4 DIRA, 3 DIRCH, 1 DIRB, 0 DIRCL, 1 is input [bit 7 is 1, bits 6, 5, 2 are 0] */
    struct dmm32_lines latches;              /* the output latches */
    struct dmm32_lines pins;                 /* the levels that the host gave to the pins */
};

/* calibration (manual 8.4, 15; page 3) */
struct dmm32_calibration {
    uint8_t value;                           /* the data register, offset 12 */
    uint8_t address;                         /* the address register, offset 13 [0-127] */
    uint8_t transfer;                        /* the transfer that runs: 0 none, 1 EEPROM read, 2 EEPROM write, 3 RUNCAL, 4 TrimDAC [0-4] */
    uint8_t key;                             /* the key A5 was written [flag] */
    uint8_t cmuxen;                          /* CMUXEN [flag] */
    uint8_t trim[8];                         /* the TrimDAC's values */
};

/* the levels of the pins that the host gave */
struct dmm32_pins {
    uint8_t din;                             /* DIN3-0 [0-15] */
    uint8_t latch;                           /* the Latch pin [flag] */
};

/* the jumpers (manual 5.4, 5.5) */
struct dmm32_wiring {
    uint8_t inputs;                          /* channel configuration, COWRIESTEP_JUMPERS_A to _D [0-3] */
    uint8_t zeroscale;                       /* RESETA sets the outputs to 0, else to 2048 [flag] */
};

struct dmm32_board {
    struct dmm32_converter converter;
    struct dmm32_requests requests;
    struct dmm32_fifo fifo;
    struct dmm32_registers registers;
    struct dmm32_outputs outputs;
    struct dmm32_clocks clocks;
    struct dmm32_ports ports;
    struct dmm32_calibration calibration;
    struct dmm32_pins pins;
    struct dmm32_wiring wiring;
};

/* ---- fresh boards */

#define COWRIESTEP_JUMPERS_A 0               /* channels 0-31 */
#define COWRIESTEP_JUMPERS_B 1               /* channels 0-15 */
#define COWRIESTEP_JUMPERS_C 2               /* channels 0-15 and 24-31 */
#define COWRIESTEP_JUMPERS_D 3               /* channels 0-23 */

/*
 * A fresh board's record: as after RESETA, counters unprogrammed, dividers 0, DIN 15, Latch and port pins 0, TrimDAC 0. zero_scale: with any
 * number but 0 the outputs are jumpered to go to 0 at a RESETA, with 0 to 2048. jumpers above 3 are no configuration: the record that comes back keeps
 * the number in wiring.inputs (255 for any above) and is otherwise fresh, so it is no working board's, and every event is refused by 1.
 */
struct dmm32_board dmm32_fresh(uint32_t jumpers, uint32_t zero_scale);

/* Zeroes a sample memory and an EEPROM, as a fresh board has them, and answers done; or, with wrong lengths, leaves both and answers refusal 2. */
uint32_t dmm32_fresh_stores(uint16_t *memory, size_t memory_length, uint8_t *eeprom, size_t eeprom_length);

/* Whether the record and the sample memory are a working board's: false where an event would be refused by 1, or by 2 for the sample memory's length. */
bool dmm32_is_working(struct dmm32_board board, const uint16_t *memory, size_t memory_length);

/*
 * ---- events
 *
 * Each changes the record and both memories as the board would be changed, and answers one number as above. Check order: 2, 1, then 3 or 5, then 4 or 10,
 * then 6, 9, 8, 7; the first that holds is the answer, and then nothing changes. Every event can answer 2 and 1; the others are named below.
 * Offsets and levels are 32 bits wide, so that none is cut before it is judged: 256 is refused as 16 is. A byte has 8 bits and a code 16, as on the
 * board's bus.
 */

/* The guest writes a byte at Base + offset. Done, or refusal 3, 6, 7, 8, 9. */
uint32_t dmm32_write_byte(struct dmm32_board *board, uint16_t *memory, size_t memory_length, uint8_t *eeprom, size_t eeprom_length, uint32_t offset, uint8_t value);

/* The guest reads a byte at Base + offset. The byte, or refusal 3, 7. */
uint32_t dmm32_read_byte(struct dmm32_board *board, uint16_t *memory, size_t memory_length, uint8_t *eeprom, size_t eeprom_length, uint32_t offset);

/*
 * The guest reads a word at Base + offset: the oldest sample, which leaves; where none is held, nothing, and nothing changes. The word, nothing, or refusal
 * 3 at any offset but 0.
 */
uint32_t dmm32_read_word(struct dmm32_board *board, uint16_t *memory, size_t memory_length, uint8_t *eeprom, size_t eeprom_length, uint32_t offset);

/*
 * The conversion in progress ends with a code, that of channel board->converter.channel; board->converter.converting says whether there is one, also
 * after an end, which may start the next of a scan. Done, or refusal 4.
 */
uint32_t dmm32_conversion_end(struct dmm32_board *board, uint16_t *memory, size_t memory_length, uint8_t *eeprom, size_t eeprom_length, int16_t code);

/* The pins DIN3-0 take the levels of bits 3-0. Done, or refusal 5 above 15. */
uint32_t dmm32_din(struct dmm32_board *board, uint16_t *memory, size_t memory_length, uint8_t *eeprom, size_t eeprom_length, uint32_t lines);

/* The Latch pin takes a level: 0 is low, any other number high. Done. */
uint32_t dmm32_latch(struct dmm32_board *board, uint16_t *memory, size_t memory_length, uint8_t *eeprom, size_t eeprom_length, uint32_t level);

/* The pins of port A, B or C take the levels of a byte. Done. One function for each port: no port number can be wrong. */
uint32_t dmm32_port_a_pins(struct dmm32_board *board, uint16_t *memory, size_t memory_length, uint8_t *eeprom, size_t eeprom_length, uint8_t pins);
uint32_t dmm32_port_b_pins(struct dmm32_board *board, uint16_t *memory, size_t memory_length, uint8_t *eeprom, size_t eeprom_length, uint8_t pins);
uint32_t dmm32_port_c_pins(struct dmm32_board *board, uint16_t *memory, size_t memory_length, uint8_t *eeprom, size_t eeprom_length, uint8_t pins);

/* One tick of the 10 MHz clock. Done. */
uint32_t dmm32_tick(struct dmm32_board *board, uint16_t *memory, size_t memory_length, uint8_t *eeprom, size_t eeprom_length);

/* What came of many ticks: the answer as of any event, and how many ticks were done, 0 where they are refused. */
struct dmm32_advanced {
    uint32_t answer;
    uint32_t done;
};

/*
 * Ticks of the 10 MHz clock, one after another, at most `ticks`: it stops after the first with which the host has something to do, that is, one in which
 * a conversion has begun (converter.converting was 0 and is 1) or a request flag has gone up (it was 0 and is 1; of the three a tick raises TINT alone).
 * The record is that of `done` calls of dmm32_tick; both memories stay as they are. Done, or refusal 2 or 1 as of a tick, also with ticks 0.
 */
struct dmm32_advanced dmm32_advance(struct dmm32_board *board, uint16_t *memory, size_t memory_length, uint8_t *eeprom, size_t eeprom_length, uint32_t ticks);

/*
 * After how many ticks, `most` at the utmost, the next comes with which the host has something to do, if no other event comes before it: `done` of
 * dmm32_advance with ticks most; 0 where that is refused. The record goes by value, and nothing changes. Where no tick can ever act it is most, at once.
 */
uint32_t dmm32_ticks_until(struct dmm32_board board, const uint16_t *memory, size_t memory_length, const uint8_t *eeprom, size_t eeprom_length, uint32_t most);

/* The calibration transfer that runs ends. Done, or refusal 10. */
uint32_t dmm32_transfer_end(struct dmm32_board *board, uint16_t *memory, size_t memory_length, uint8_t *eeprom, size_t eeprom_length);

/*
 * ---- what the host has to act on
 *
 * Both take records by value and change nothing. They answer for every record, a working board's or not.
 */

/* The interrupt line: whether one of the three request flags is set (manual 11.1). */
bool dmm32_irq(struct dmm32_board board);

/* dmm32_due: what the host has to act on, of a board before an event (or many) and after it, as bits of one number. What stands now: */
#define COWRIESTEP_DUE_IRQ UINT32_C(0x001)           /* the interrupt line is up: dmm32_irq(after) */
#define COWRIESTEP_DUE_CONVERSION UINT32_C(0x002)    /* a conversion is in progress: its end is dmm32_conversion_end's */
#define COWRIESTEP_DUE_TRANSFER UINT32_C(0x004)      /* a transfer runs: its end is dmm32_transfer_end's */
/* What the board puts out now, and did not before: */
#define COWRIESTEP_DUE_DOUT UINT32_C(0x008)          /* DOUT2-0 on their pins, with OUT2 and OUT0 where Base + 10 brings them there */
#define COWRIESTEP_DUE_OUTPUT_0 UINT32_C(0x010)      /* the code of output 0: after.outputs.codes.out0 */
#define COWRIESTEP_DUE_OUTPUT_1 UINT32_C(0x020)
#define COWRIESTEP_DUE_OUTPUT_2 UINT32_C(0x040)
#define COWRIESTEP_DUE_OUTPUT_3 UINT32_C(0x080)
#define COWRIESTEP_DUE_PORT_A UINT32_C(0x100)        /* the lines of port A that the board drives, or their levels; a latch behind an input is not put out */
#define COWRIESTEP_DUE_PORT_B UINT32_C(0x200)
#define COWRIESTEP_DUE_PORT_C UINT32_C(0x400)
/* The channel of the conversion in progress, and the transfer that runs as calibration.transfer has it; 0 where there is none. */
#define COWRIESTEP_DUE_CHANNEL(due) ((due) >> 16 & 255)
#define COWRIESTEP_DUE_RUNNING(due) ((due) >> 24)

uint32_t dmm32_due(struct dmm32_board before, struct dmm32_board after);

/*
 * ---- how long things take on the real board (the host paces them; the model has no clock of its own)
 *
 *   a conversion      about 4 microseconds (manual 10.5); at most 200,000 a second
 *   a step of a scan  20, 15, 10 or 5 microseconds from one conversion to the next, by SCINT1-0, bits 5 and 4 of what the guest writes to Base + 11
 *                     (manual, Base + 11; the driver's default is 20). The record does not keep SCINT
 *   DACBUSY           10 microseconds (manual, Base + 4): 100 ticks, which the board counts by itself
 *   transfers         the manual gives no time for the EEPROM, the TrimDAC or RUNCAL; a guest waits by CALBUSY, EEBUSY and TDBUSY. A whole calibration by the
 *                     guest's driver takes about a second for each input range (manual 15)
 *
 * ---- how a system reset is done
 *
 * RESETA: dmm32_write_byte(LENT, 8, 0x20), whatever page is selected. It is the board's reset line: registers, page, request flags and the key are cleared, the
 * sample memory is emptied, conversion and transfer are abandoned, the outputs go to their jumpered level. The EEPROM, the TrimDAC's values, the levels that the host
 * gave to the pins and the jumpers stay, and the counters count on. A fresh record in its place would lose these: dmm32_fresh is for a board that begins.
 */

/*
 * ---- how a host keeps time
 *
 * The board has no clock of its own. The host knows how many ticks of its 10 MHz clock are due since it last advanced the board, and does with them:
 *   1. Before an access of the guest, and before any other event, it advances the board to now: dmm32_advance with the ticks that are due, and again with
 *      the rest while `done` is less than these, since a call stops where there is something to do.
 *   2. After each call it acts on what has come, by dmm32_due: where a conversion has begun, it works out when that one ends, and delivers
 *      dmm32_conversion_end when the board's time is there; where a request flag has gone up, it raises the interrupt.
 *   3. Then it delivers the event, and acts on what that has begun or raised in the same way.
 *   4. It asks dmm32_ticks_until how far the next such tick is, and sets a timer by the answer, or by the end of the conversion in progress where that
 *      comes sooner. When the timer fires it begins at 1. The board needs no other care: a late timer delays what the guest sees, and the board's own
 *      time stays exact.
 */

/*
 * ---- the collector: it stops, sets and starts a board, empties its sample memory and hands the samples over
 *
 * Its record names one bus access at a time. The host asks for the access, makes it, and brings back what came of it; what comes back has the next record.
 * On a board of this library dmm32_turn does the three at once. All records of the collector go by value.
 */

/* What a start is given. */
struct dmm32_settings {
    uint8_t low;                             /* the range of channels, low to high; refusal 11, 12 */
    uint8_t high;
    uint8_t jumpers;                         /* COWRIESTEP_JUMPERS_A to _D; another number has no channel at all: refusal 12 */
    uint8_t range;                           /* the range code for Base + 11; refusal 13 */
    uint16_t clock;                          /* 0: external clock; any other number: internal clock */
    uint16_t limit;                          /* how often a start may poll STS, 1 to 1,000; refusal 14 */
};

/*
 * The record. It is fit where its settings would start, next is from low to high, polls is at most limit (below it in phase 1, 0 in phase 0), left is
 * 1 to 512 in phase 9, and the phase is 0 to 10.
 */
struct dmm32_collector {
    struct dmm32_settings settings;
    uint8_t phase;                           /* 0: write 0 to 9; 1: read 8; 2: write the range code to 11; 3: write 2 to 7; 4: write low to 2; 5: write high to 3;
                                                6: write 2 to 9, or 3 for the internal clock; 7: read 7; 8: read a word; 9: read 512 words; 10: stuck */
    uint8_t next;                            /* the channel of the next sample */
    uint16_t polls;                          /* the reads of 8 since this start whose answers were taken */
    uint16_t left;                           /* in phase 9, the word reads that are left */
};

/* A start: the record, and 0; or a record of zeros, which is unfit, and the refusal 14, 11, 12 or 13, in this order. */
struct dmm32_start {
    struct dmm32_collector collector;
    uint16_t refusal;
};

struct dmm32_start dmm32_collector_start(struct dmm32_settings settings);

/* Whether a record is fit. */
bool dmm32_collector_is_fit(struct dmm32_collector collector);

/* The access that a collector makes now. What a kind does not have is 0. */
struct dmm32_access {
    uint8_t kind;                            /* COWRIESTEP_ACCESS_NONE, _WRITE_BYTE, _READ_BYTE, _READ_WORD */
    uint8_t offset;
    uint8_t value;                           /* the byte to write */
    uint8_t refusal;                         /* of kind none: 1 unfit, 15 stuck */
};

#define COWRIESTEP_ACCESS_NONE 0
#define COWRIESTEP_ACCESS_WRITE_BYTE 1
#define COWRIESTEP_ACCESS_READ_BYTE 2
#define COWRIESTEP_ACCESS_READ_WORD 3

struct dmm32_access dmm32_collector_access(struct dmm32_collector collector);

/*
 * What came of the access: the number that the bus brought, nothing (a word read that found no sample), or a refusal of the board. After a write a number or
 * nothing is not looked at. COWRIESTEP_BROUGHT is its initialiser where `answer` is a board's: struct dmm32_bus_answer brought = COWRIESTEP_BROUGHT(answer);
 */
struct dmm32_bus_answer {
    uint16_t number;                         /* of kind number: the byte or the word */
    uint8_t kind;                            /* COWRIESTEP_BROUGHT_NUMBER, _REFUSAL, _NOTHING; another number is taken as a refusal */
    uint8_t refusal;                         /* of kind refusal: its number */
};

#define COWRIESTEP_BROUGHT_NUMBER 0
#define COWRIESTEP_BROUGHT_REFUSAL 1
#define COWRIESTEP_BROUGHT_NOTHING 2
#define COWRIESTEP_BROUGHT_KIND(answer) \
    (COWRIESTEP_KIND(answer) == COWRIESTEP_REFUSED ? COWRIESTEP_BROUGHT_REFUSAL \
        : COWRIESTEP_KIND(answer) == COWRIESTEP_NOTHING ? COWRIESTEP_BROUGHT_NOTHING : COWRIESTEP_BROUGHT_NUMBER)
#define COWRIESTEP_BROUGHT(answer) { COWRIESTEP_NUMBER(answer), (uint8_t)COWRIESTEP_BROUGHT_KIND(answer), (uint8_t)COWRIESTEP_REFUSAL(answer) }

/* A sample that is handed over: its channel and its signed code. */
struct dmm32_sample {
    uint16_t channel;
    int16_t code;
};

/* The collector after an answer, and what is handed over. What a kind does not have is 0. */
struct dmm32_taken {
    struct dmm32_collector collector;        /* the next record; a refusal leaves it, but for the poll that gets stuck */
    uint16_t polls;                          /* polls of this start; with the last sample of a drain, of the start that ends there */
    uint8_t handed;                          /* COWRIESTEP_HANDED_NOTHING, _START_END, _SAMPLE, _LAST_SAMPLE, _REFUSED */
    uint8_t refusal;                         /* of kind refused: 1 unfit, 15 stuck, 17 no byte, 20 nothing where a sample is due; or the board's own */
    struct dmm32_sample sample;              /* of kinds sample and last sample */
};

#define COWRIESTEP_HANDED_NOTHING 0
#define COWRIESTEP_HANDED_START_END 1        /* the last write of a start was made: samples from here belong to this run */
#define COWRIESTEP_HANDED_SAMPLE 2           /* one sample */
#define COWRIESTEP_HANDED_LAST_SAMPLE 3      /* the last of 512 that are drained: a gap follows, and the collector starts again */
#define COWRIESTEP_HANDED_REFUSED 4

/*
 * Takes what came of the access that the record names. Of the status read at 7 it goes by EF first, FF next, and reads nothing else: with EF it looks again,
 * with FF it drains the memory, and with neither it takes one sample. Told "nothing" where a sample is due, a fit record stays as it is, so that it names the
 * same word read again and a drain's reads left do not go down, hands nothing over and answers 20; where a byte is due, 17. Told of a refusal, a fit record
 * that is not stuck stays as it is, hands nothing over and answers the refusal's number; an unfit one answers 1 and a stuck one 15, as to anything.
 */
struct dmm32_taken dmm32_collector_take(struct dmm32_collector collector, struct dmm32_bus_answer brought);

/*
 * One turn of a collector on a board: the access that it names is made as an event of the board, and the collector takes what comes of it. It is what
 * dmm32_collector_access, the event and dmm32_collector_take do one after another. Where the collector names no access, the board refuses it, or a word is
 * read and no sample is there, nothing changes, and the number is in `refusal`: 1 unfit or 15 stuck, the board's own, or 20, which never comes of a collector
 * that a start gave and that is alone on the bus. It is in libcowriestep_turn.a.
 */
struct dmm32_taken dmm32_turn(struct dmm32_board *board, uint16_t *memory, size_t memory_length, uint8_t *eeprom, size_t eeprom_length, struct dmm32_collector collector);

/*
 * Of samples that start on channel low, how many from the front are whole scans of low to high: the most that are. 0 where low is above high or high
 * above 31.
 */
size_t dmm32_whole_scans(const int16_t *samples, size_t length, uint32_t low, uint32_t high);

/*
 * ---- any event as one record of numbers, and where every sample went
 *
 * These four stand in libcowriestep_tally.a, that of crates/cowriestep_tally, which a host that uses one of them links besides.
 */

/* An event. What a kind does not have is not looked at. */
struct dmm32_event {
    uint8_t kind;                            /* COWRIESTEP_EVENT_WRITE_BYTE to _TRANSFER_END; another number is no event: refusal 3, as of an offset above 15 */
    uint8_t value;                           /* the byte that is written, or the levels of a port's pins */
    int16_t code;                            /* the code that a conversion ends with */
    uint32_t offset;                         /* of a write or a read */
    uint32_t levels;                         /* of DIN3-0 in bits 3-0; or the Latch pin's: 0 is low, any other number high */
};

/* The first three are the kinds of struct dmm32_access, so that the access which a collector names is an event: see COWRIESTEP_ACCESS_EVENT. */
#define COWRIESTEP_EVENT_WRITE_BYTE 1        /* offset, value: dmm32_write_byte */
#define COWRIESTEP_EVENT_READ_BYTE 2         /* offset: dmm32_read_byte */
#define COWRIESTEP_EVENT_READ_WORD 3         /* offset: dmm32_read_word */
#define COWRIESTEP_EVENT_CONVERSION_END 4    /* code: dmm32_conversion_end */
#define COWRIESTEP_EVENT_DIN 5               /* levels: dmm32_din */
#define COWRIESTEP_EVENT_LATCH 6             /* levels: dmm32_latch */
#define COWRIESTEP_EVENT_PORT_A_PINS 7       /* value: dmm32_port_a_pins */
#define COWRIESTEP_EVENT_PORT_B_PINS 8       /* value: dmm32_port_b_pins */
#define COWRIESTEP_EVENT_PORT_C_PINS 9       /* value: dmm32_port_c_pins */
#define COWRIESTEP_EVENT_TICK 10             /* dmm32_tick */
#define COWRIESTEP_EVENT_TRANSFER_END 11     /* dmm32_transfer_end */

/* The event that an access of a collector is: struct dmm32_event event = COWRIESTEP_ACCESS_EVENT(access); no access is no event. */
#define COWRIESTEP_ACCESS_EVENT(access) { (access).kind, (access).value, 0, (access).offset, 0 }

/* One event of any kind: the answer, the record and both memories are those of the function that stands beside its kind. No event is refused by 2, 1 or 3. */
uint32_t dmm32_step(struct dmm32_board *board, uint16_t *memory, size_t memory_length, uint8_t *eeprom, size_t eeprom_length, struct dmm32_event event);

/*
 * Where the samples went, and the conversions: counts that a host keeps beside its board, which has none of them. A tally begins as zeros. Before each event
 * the host notes it, with the board as it stands: tally = dmm32_note(tally, COWRIESTEP_LENT(board, memory, eeprom), event); and then lets it happen. What is
 * refused counts nowhere. A count that has come to UINT64_MAX stays there.
 */
struct dmm32_tally {
    uint64_t begun;                          /* conversions begun: by a trigger while none was in progress, and each next one of a scan */
    uint64_t ended;                          /* conversions ended */
    uint64_t abandoned;                      /* conversions that were in progress at a reset, RESETA or RESETD */
    uint64_t read;                           /* samples that left by a word read or by a byte read of 1 */
    uint64_t lost;                           /* samples of conversions that ended with 512 held */
    uint64_t cleared;                        /* samples that were held at a FIFORST, a RESETA or a RESETD */
};

/* The tally with an event that is about to happen. The record goes by value, and nothing changes. */
struct dmm32_tally dmm32_note(struct dmm32_tally tally, struct dmm32_board board, const uint16_t *memory, size_t memory_length, const uint8_t *eeprom, size_t eeprom_length, struct dmm32_event event);

/* The tally with the ticks that dmm32_advance is about to do with the same arguments: that of dmm32_note before each of its `done` ticks. */
struct dmm32_tally dmm32_note_ticks(struct dmm32_tally tally, struct dmm32_board board, const uint16_t *memory, size_t memory_length, const uint8_t *eeprom, size_t eeprom_length, uint32_t ticks);

/*
 * Whether both sums hold, of a tally that began as zeros with the board `first` and stands with the board `now`, in whole numbers of any size:
 *     ended + held at first = read + held now + lost + cleared
 *     begun + in progress at first = ended + abandoned + in progress now
 * `held` is fifo.held, and in progress is 1 where converter.converting is 1, else 0. They hold after any events that were each noted, refused ones among them,
 * while no count has come to UINT64_MAX. Of a fresh board held and in progress are 0.
 */
bool dmm32_tally_adds_up(struct dmm32_tally tally, struct dmm32_board first, struct dmm32_board now);

/*
 * ---- A/D codes as volts (manual, chapter 9)
 *
 * code is the sample, -32768 to 32767. range is the range code, as it is written to Base + 11:
 *     0 ±5 V   1 ±2.5 V   2 ±1.25 V   3 ±0.625 V   8 ±10 V   9 ±5 V   10 ±2.5 V   11 ±1.25 V
 *     12 0-10 V   13 0-5 V   14 0-2.5 V   15 0-1.25 V   any other number is refused
 *
 * dmm32_volts answers code * FS / 32768 at a bipolar range and (code + 32768) * FS / 65536 at a unipolar one, FS being the full-scale voltage. The
 * double is exactly that value, a whole number over 2^18: nothing is rounded. 0 V is +0.0. At a range code that is refused it is a NaN. It is worked
 * out by multiplications alone.
 */
double dmm32_volts(int16_t code, uint32_t range);

/* 13 where dmm32_volts refuses the range code, 0 where it has volts: the bare number. */
uint32_t dmm32_volts_refusal(uint32_t range);

/*
 * ---- volts as output codes (manual, chapters 13 and 14)
 *
 * The voltage is in microvolts. The output ranges, which the board has as jumpers, are numbered here:
 */
#define COWRIESTEP_OUTPUT_BIPOLAR_5V 0       /* -5 V to 5 V */
#define COWRIESTEP_OUTPUT_BIPOLAR_10V 1      /* -10 V to 10 V */
#define COWRIESTEP_OUTPUT_UNIPOLAR_5V 2      /* 0 V to 5 V */
#define COWRIESTEP_OUTPUT_UNIPOLAR_10V 3     /* 0 V to 10 V */

/*
 * These two answer a number below 65536, or a refusal: 65536 and its number. (It is not the answer to an event, and has macros of its own.)
 */
#define COWRIESTEP_OUTPUT_IS_REFUSED(n) ((n) >= UINT32_C(65536))
#define COWRIESTEP_OUTPUT_REFUSAL(n) ((n) - UINT32_C(65536))

/*
 * The 12-bit code, 0 to 4095, whose voltage is nearest to microvolts, halves upward; or a refusal: 19 for an unknown range, then 18 for a voltage
 * below the range or one whose nearest code is above 4095.
 */
uint32_t dmm32_output_code(int32_t microvolts, uint32_t range);

/*
 * The two bytes that load that code on a channel, 0 to 3, as one number: n % 256 is the LSB, for Base + 4, and n / 256 is the MSB with the channel
 * in its bits 7 and 6, for Base + 5; or a refusal: 19 for an unknown range or channel, then 18.
 */
uint32_t dmm32_output_bytes(int32_t microvolts, uint32_t range, uint32_t channel);

#ifdef __cplusplus
}
#endif

#endif
