/*
 * Where every sample went: the tally that a host keeps beside its board, through events worked out by hand from request M-112, each time by dmm32_step
 * and by the functions of the events; with memories behind which there is nothing; and at the ends of its numbers.
 */
#define _DEFAULT_SOURCE
#include <stdlib.h>
#include <sys/mman.h>

#include "tallies.h"

static struct lent l;
static struct dmm32_board first;            /* the board where the tally began */
static struct dmm32_tally tally;
static int by_functions;
static unsigned refused;                    /* events that were refused since the tally began */
static uint16_t *last_memory;               /* the last 512 numbers and the last 128 bytes of pages behind which there is none */
static uint8_t *last_eeprom;

static void is(const char *what, int64_t got, int64_t want) { expect("tally.c", what, got, want); }

static void begin(void) {
    first = l.board;
    tally = (struct dmm32_tally){ 0, 0, 0, 0, 0, 0 };
    refused = 0;
}

static void fresh(void) {
    l = (struct lent){ .board = dmm32_fresh(COWRIESTEP_JUMPERS_A, 0) };
    begin();
}

/* ---- an event is noted, with the memories in pages that cannot be written, and then it happens */
enum { PAGES = 3, PAGE = 65536 };

/* the end of pages behind which there is none */
static void *pages_end(void) {
    uint8_t *pages = mmap(NULL, PAGES * PAGE, PROT_READ | PROT_WRITE, MAP_PRIVATE | MAP_ANONYMOUS, -1, 0);
    if (pages == MAP_FAILED || mprotect(pages + (PAGES - 1) * PAGE, PAGE, PROT_NONE) != 0) exit(1);
    return pages + (PAGES - 1) * PAGE;
}

static void writable(int yes) {
    int how = yes ? PROT_READ | PROT_WRITE : PROT_READ;
    if (mprotect((uint8_t *)(last_memory + COWRIESTEP_MEMORY_LENGTH) - PAGE, PAGE, how) != 0) exit(1);
    if (mprotect(last_eeprom + COWRIESTEP_EEPROM_LENGTH - PAGE, PAGE, how) != 0) exit(1);
}

static void happens(struct dmm32_event e) {
    writable(1);
    memcpy(last_memory, l.memory, COWRIESTEP_MEMORY_LENGTH * sizeof *last_memory);
    memcpy(last_eeprom, l.eeprom, COWRIESTEP_EEPROM_LENGTH);
    writable(0);
    tally = dmm32_note(tally, l.board, last_memory, COWRIESTEP_MEMORY_LENGTH, last_eeprom, COWRIESTEP_EEPROM_LENGTH, e);
    uint32_t answer = by_functions ? called(&l, COWRIESTEP_MEMORY_LENGTH, COWRIESTEP_EEPROM_LENGTH, e) : dmm32_step(LENT(&l), e);
    refused += COWRIESTEP_KIND(answer) == COWRIESTEP_REFUSED;
}

static void happen(unsigned times, uint8_t kind, uint32_t number, uint8_t byte) {
    while (times-- > 0) happens(event_of(kind, number, byte));
}

/*
 * Operations, their numbers in hex: w write, offset and two digits of the byte; r read; x word read; e end; d DIN; t so many ticks; n so many triggers,
 * each with its end; X so many word reads; o begins a tally anew; D makes DIN of the record a number, as no event does.
 */
static void operations(const char *text) {
    while (*text) {
        char letter = *text++, *end = (char *)text;
        uint32_t number = *text == ' ' ? 0 : (uint32_t)strtoul(text, &end, 16);
        for (text = end; *text == ' '; text++) continue;
        if (letter == 'w') happen(1, COWRIESTEP_EVENT_WRITE_BYTE, number >> 8, (uint8_t)number);
        if (letter == 'r') happen(1, COWRIESTEP_EVENT_READ_BYTE, number, 0);
        if (letter == 'x') happen(1, COWRIESTEP_EVENT_READ_WORD, number, 0);
        if (letter == 'X') happen(number, COWRIESTEP_EVENT_READ_WORD, 0, 0);
        if (letter == 'e') happen(1, COWRIESTEP_EVENT_CONVERSION_END, number, 0);
        if (letter == 'd') happen(1, COWRIESTEP_EVENT_DIN, number, 0);
        if (letter == 't') happen(number, COWRIESTEP_EVENT_TICK, 0, 0);
        if (letter == 'o') begin();
        if (letter == 'D') l.board.pins.din = (uint8_t)number;
        for (uint32_t i = 0; letter == 'n' && i < number; i++) operations("w0000 e0001");
    }
}

/* Begun, ended, abandoned, read, lost, cleared, and how many events were refused; worked out by hand, docs/BOARD-CASES.md has the reasons. */
static const struct { const char *operations; struct dmm32_tally tally; unsigned refused; } cases[] = {
    { "", { 0, 0, 0, 0, 0, 0 }, 0 },
    { "w0000", { 1, 0, 0, 0, 0, 0 }, 0 },
    { "w0000 w0000 e0001 e0002", { 1, 1, 0, 0, 0, 0 }, 1 },
    { "n2 x0 r0 r1 r1 x0", { 2, 2, 0, 2, 0, 0 }, 0 },
    { "r0 r1 x0 x1 w0000 r0 r1 x0", { 1, 0, 0, 0, 0, 0 }, 1 },
    { "n1 x1 x2 xF x10 x100 x10000 r10 r101 w1000 w10702 w10820 w1000820", { 1, 1, 0, 0, 0, 0 }, 12 },
    { "n200", { 512, 512, 0, 0, 0, 0 }, 0 },
    { "n201", { 513, 513, 0, 0, 1, 0 }, 0 },
    { "n203 x0 n1 x0 r1", { 516, 516, 0, 3, 3, 0 }, 0 },                                /* 516 = 3 read + 510 held + 3 lost */
    { "n203 X203", { 515, 515, 0, 512, 3, 0 }, 0 },                                     /* the last three word reads find nothing */
    { "n203 w0702", { 515, 515, 0, 0, 3, 512 }, 0 },                                    /* OVF counts nothing */
    { "n3 x0 w0702 w0702 w070A", { 3, 3, 0, 1, 0, 2 }, 0 },
    { "n3 w07FD w0708", { 3, 3, 0, 0, 0, 0 }, 0 },
    { "n2 w0000 w0702 e5", { 3, 3, 0, 0, 0, 2 }, 0 },                                   /* FIFORST abandons nothing */
    { "w0203 w0306 w0704 w0000 e1 w0820 e2", { 2, 1, 1, 0, 0, 1 }, 1 },                 /* of channels 3 to 6, 3 ended and 4 is abandoned */
    { "w0203 w0306 w0704 w0000 e1 e2 w0810 e3", { 3, 2, 1, 0, 0, 2 }, 1 },
    { "n2 w0000 w0828", { 3, 2, 1, 0, 0, 2 }, 0 },
    { "n2 w0000 w0818", { 3, 2, 1, 0, 0, 2 }, 0 },
    { "n2 w0000 w0808 w080B", { 3, 2, 0, 0, 0, 0 }, 0 },                                /* INTRST alone */
    { "w0820 w0810 w0830", { 0, 0, 0, 0, 0, 0 }, 0 },
    { "n202 w0000 w0830 w0830", { 515, 514, 1, 0, 2, 512 }, 0 },
    { "w0902 w0000 w0903 w0000 w0900", { 0, 0, 0, 0, 0, 0 }, 0 },                       /* CLKEN */
    { "w0203 w0305 w0704 w0000 w0000 e1 w0000 e2 e3 e4", { 3, 3, 0, 0, 0, 0 }, 1 },     /* a scan of three */
    { "n1FF w0203 w0305 w0704 w0000 e1 e2 e3", { 514, 514, 0, 0, 2, 0 }, 0 },           /* its first is kept, two are lost */
    { "w0203 w0305 w0704 w0000 e1 w0700 e2", { 2, 2, 0, 0, 0, 0 }, 0 },
    { "w0902 d7 dF d7 e1 dF d7", { 2, 1, 0, 0, 0, 0 }, 0 },
    { "w0A01 w0902 d3 d13 dF d7", { 1, 0, 0, 0, 0, 0 }, 1 },                            /* the first fall is stopped by DIN2 */
    { "w0F54 w0D02 w0F94 w0E02 w0903 t3", { 0, 0, 0, 0, 0, 0 }, 0 },                    /* OUT2 falls with ticks 4, 8, 12 .. */
    { "w0F54 w0D02 w0F94 w0E02 w0903 t14 e1 t10", { 2, 1, 0, 0, 0, 0 }, 0 },
    { "w0F90 w0E01 w0F54 w0D02 t4 w0903 w0E01", { 1, 0, 0, 0, 0, 0 }, 0 },              /* a count takes OUT2 low */
    { "w0F94 w0E02 w0F50 w0F54 w0903 w0F50", { 1, 0, 0, 0, 0, 0 }, 0 },                 /* OUT1 that falls by a control word clocks counter 2 */
    { "w0903 w0E05 w0F91 w0F92 w0FC2 w0F94 w0E01", { 0, 0, 0, 0, 0, 0 }, 5 },           /* 7 */
    { "n3 w0000 D10 w0702 w0820 x0 r1 e1 t2", { 4, 3, 0, 0, 0, 0 }, 7 },                /* DIN is 16: 1 */
    { "n3 D10 w0702 DF w0702", { 3, 3, 0, 0, 0, 3 }, 1 },
    { "n3 w0000 o x0 e5 w0702", { 0, 1, 0, 1, 0, 3 }, 0 },                              /* 1 + 3 = 1 + 0 + 0 + 3; 0 + 1 = 1 + 0 + 0 */
    { "n202 w0000 o e1 w0000 w0820", { 1, 1, 1, 0, 1, 512 }, 0 },                       /* 1 + 512 = 0 + 0 + 1 + 512; 1 + 1 = 1 + 1 + 0 */
    { "w0203 w0305 w0704 w0000 o e1 w0820", { 1, 1, 1, 0, 0, 1 }, 0 },
    { "n3 x0 o X3", { 0, 0, 0, 2, 0, 0 }, 0 },
};

static void worked(void) {
    for (unsigned i = 0; i < sizeof cases / sizeof *cases; i++)
        for (by_functions = 0; by_functions < 2; by_functions++) {
            fresh();
            operations(cases[i].operations);
            tallied(cases[i].operations, tally, cases[i].tally);
            is(cases[i].operations, refused, cases[i].refused);
            is("whether it adds up", dmm32_tally_adds_up(tally, first, l.board), 1);
            tally.lost++;
            is("whether one more lost adds up", dmm32_tally_adds_up(tally, first, l.board), 0);
        }
}

/* Lengths that are wrong: nothing is counted, and nothing beyond them is there to be read. */
static void lengths(void) {
    static const size_t shorter[] = { 0, 1, 127, 511 };
    const struct dmm32_tally zeros = { 0, 0, 0, 0, 0, 0 };
    fresh();
    operations("n200 w0000");
    for (uint8_t kind = 0; kind <= KINDS + 1; kind++)
        for (unsigned i = 0; i < 4; i++) {
            struct dmm32_event e = event_of(kind, kind == COWRIESTEP_EVENT_WRITE_BYTE ? 7 + i % 2 : 0, 0x22);
            const uint16_t *numbers = last_memory + COWRIESTEP_MEMORY_LENGTH;
            const uint8_t *bytes = last_eeprom + COWRIESTEP_EEPROM_LENGTH;
            size_t few = shorter[i] < COWRIESTEP_EEPROM_LENGTH ? shorter[i] : 0;
            tallied("a memory too short", dmm32_note(zeros, l.board, numbers - shorter[i], shorter[i], last_eeprom, COWRIESTEP_EEPROM_LENGTH, e), zeros);
            tallied("an EEPROM too short", dmm32_note(zeros, l.board, last_memory, COWRIESTEP_MEMORY_LENGTH, bytes - few, few, e), zeros);
            tallied("ticks, too short", dmm32_note_ticks(zeros, l.board, numbers - shorter[i], shorter[i], bytes - few, few, 1000), zeros);
            tallied("a memory too long", dmm32_note(zeros, l.board, last_memory - 1, 513, last_eeprom, COWRIESTEP_EEPROM_LENGTH, e), zeros);
            tallied("an EEPROM too long", dmm32_note(zeros, l.board, last_memory, COWRIESTEP_MEMORY_LENGTH, last_eeprom - 1, 129, e), zeros);
        }
}

/* ---- a count that has come to UINT64_MAX stays there, and the others go on; cleared goes up by as many as are held */
static void ends(void) {
    const uint64_t most = UINT64_MAX;
    for (uint64_t below_most = 0; below_most < 4; below_most++) {
        uint64_t from = most - below_most;
        fresh();
        tally = (struct dmm32_tally){ from, from, from, from, from, from };
        operations("w0000 e1 x0 n1 w0702 w0000 w0820");                         /* 3 begun, 2 ended, 1 abandoned, 1 read, 0 lost, 1 cleared */
        uint64_t one = below_most > 0 ? from + 1 : most;
        tallied("near the end", tally, (struct dmm32_tally){ below_most < 3 ? most : from + 3, below_most < 2 ? most : from + 2, one, one, from, one });
        operations("n202");                                                     /* 514 more begun and ended: 512 held, 2 lost */
        tallied("lost near the end", tally, (struct dmm32_tally){ most, most, one, one, below_most < 2 ? most : from + 2, one });
    }
    static const uint64_t under[] = { 0, 1, 2, 100, 511, 512, 513, 514, 1023, 1024, 1025 };
    for (unsigned i = 0; i < sizeof under / sizeof *under; i++)
        for (int reset = 0; reset < 3; reset++) {
            fresh();
            operations("n203 w0000");                                           /* 512 held */
            tally = (struct dmm32_tally){ 1, 2, most, 4, 5, most - under[i] };
            operations(reset == 0 ? "w0702" : reset == 1 ? "w0820" : "w0810");
            tallied("512 cleared near the end", tally, (struct dmm32_tally){ 1, 2, most, 4, 5, under[i] < 512 ? most : most - under[i] + 512 });
        }
}

int main(void) {
    last_memory = (uint16_t *)pages_end() - COWRIESTEP_MEMORY_LENGTH;
    last_eeprom = (uint8_t *)pages_end() - COWRIESTEP_EEPROM_LENGTH;
    worked();
    lengths();
    ends();
    printf("tally.c: %ld counts and answers compared, %ld differ\n", compared, differ);
    return differ != 0;
}
