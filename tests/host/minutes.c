/*
 * A host that keeps ten minutes of the board's time by dmm32_advance and dmm32_ticks_until: counters 1 and 2 pace scans, conversions end some microseconds
 * after they begin, the collector empties the sample memory when ADINT comes, counter 0 asks for interrupts, and counts are read back at odd moments; what
 * must come, and when, is in minutes.h.
 */
#include "minutes.h"

static long all_scans, all_tints, all_handed, asked, by_conversion, by_tint, by_neither, late, counts_read, gates, busy_seen, idle_seen;

static void put(uint32_t offset, uint8_t value) { same("a write of the guest", dmm32_write_byte(LENT(&host), offset, value), 0); }

static uint32_t get(uint32_t offset) {
    uint32_t answer = dmm32_read_byte(LENT(&host), offset);
    same("a read of the guest", COWRIESTEP_KIND(answer), COWRIESTEP_BYTE);
    return COWRIESTEP_NUMBER(answer);
}

/* the code that the host gives to the n-th conversion of a part */
static int16_t code_of(uint64_t n) { return (int16_t)(uint16_t)(n * 40503 + 77); }

/* how far the next tick is with which there is something to do */
static void ask(void) {
    uint64_t most = BOARD_TIME - now, at = host.board.converter.converting ? NEVER : scan_at();
    if (most > ALL_TICKS) most = ALL_TICKS;
    if (!host.board.requests.flags.tint && tint_at() < at) at = tint_at();
    uint32_t until = dmm32_ticks_until(host.board, STORES(&host), (uint32_t)most);
    same("ticks until something is to be done", until, (int64_t)(at - now < most ? at - now : most));
    next_at = now + until;
    asked++;
}

static void conversion_begins(void) {
    same("the channel in conversion", host.board.converter.channel, part->low + (int64_t)(begun % CHANNELS));
    begun++;
    end_at = now + 40 + below(20);
}

static void conversion_ends(void) {
    same("an end", dmm32_conversion_end(LENT(&host), code_of(begun - 1)), 0);
    end_at = NEVER;
    if (host.board.converter.converting) conversion_begins();
}

/* what a tick brought about: it came when it had to */
static void act(int was_converting, int was_tint) {
    int conversion = !was_converting && host.board.converter.converting, tint = !was_tint && host.board.requests.flags.tint;
    if (conversion) {
        same("when a scan begins", (int64_t)now, (int64_t)scan_at());
        paced++, scans++, by_conversion++;
        conversion_begins();
    }
    if (tint) {
        same("when TINT goes up", (int64_t)now, (int64_t)tint_at());
        tints++, by_tint++;
    }
    by_neither += !conversion && !tint;
}

/* The board is advanced to a time, and what comes on the way is done when it comes. After a difference nothing more can be worked out. */
static void advance_to(uint64_t time) {
    while (now < time && differ == 0) {
        uint64_t to = end_at < time ? end_at : time;
        if (to - now > ALL_TICKS) to = now + ALL_TICKS;
        int was_converting = host.board.converter.converting, was_tint = host.board.requests.flags.tint;
        struct dmm32_advanced a = dmm32_advance(LENT(&host), (uint32_t)(to - now));
        same("ticks that are advanced", a.answer, 0);
        same("ticks done", a.done, (int64_t)((next_at < to ? next_at : to) - now));
        now += a.done;
        act(was_converting, was_tint);
        if (now == end_at) conversion_ends();
        ask();
    }
}

/* the access that the collector names, and what is handed over */
static struct dmm32_taken turn(void) {
    struct dmm32_taken t = dmm32_turn(LENT(&host), collector);
    same("a refused access", t.refusal, 0);
    collector = t.collector;
    return t;
}

/* looks and word reads, until a look shows the memory empty: phase 7 stays */
static void empty_memory(void) {
    for (int turns = 0; turns < 2 * COWRIESTEP_MEMORY_LENGTH; turns++) {
        struct dmm32_taken t = turn();
        if (t.handed == COWRIESTEP_HANDED_SAMPLE) {
            same("the sample's channel", t.sample.channel, part->low + (int64_t)(handed % CHANNELS));
            same("the sample's code", t.sample.code, code_of(handed));
            handed++;
        } else {
            same("what is handed over by a look", t.handed, COWRIESTEP_HANDED_NOTHING);
            if (collector.phase == 7) return;
        }
    }
    same("whether the memory is emptied", 0, 1);
}

static void interrupt(void) {
    const struct dmm32_flags *f = &host.board.requests.flags;
    if (!f->adint && !f->tint) return;
    if (f->adint) empty_memory();
    put(8, 0x08);
    ask();
}

/* ---- the guest */

static void program(uint8_t counter, uint8_t mode, uint32_t count) {
    put(15, (uint8_t)(counter << 6 | 0x30 | mode << 1));
    put(12u + counter, (uint8_t)count);
    put(12u + counter, (uint8_t)(count >> 8));
}

static void begin_part(void) {
    put(8, 0);
    put(10, part->counting);
    if (part->mode0 != NONE) program(0, part->mode0, part->count0);
    program(1, 2, part->count1);
    program(2, 2, part->count2);
    began0 = began12 = now;
    frozen = end_at = NEVER;
    paced = scans = tints = begun = handed = 0;
    struct dmm32_start s = dmm32_collector_start((struct dmm32_settings){ part->low, (uint8_t)(part->low + CHANNELS - 1), COWRIESTEP_JUMPERS_A, 8, 1, 10 });
    same("the refusal of a start", s.refusal, 0);
    collector = s.collector;
    for (int i = 0; i < 7; i++) same("handed over by a start", turn().handed, i < 6 ? COWRIESTEP_HANDED_NOTHING : COWRIESTEP_HANDED_START_END);
    put(6, 128);
    put(7, FIFOEN_SCANEN);
    put(9, ADINTE | part->tinte | CLKEN_CLKSEL);
    ask();
}

static uint32_t count_read(uint8_t counter) {
    put(15, (uint8_t)(counter << 6));
    uint32_t least = get(12u + counter);
    counts_read++;
    return least | get(12u + counter) << 8;
}

/* the count after so many pulses, of which the first loads it; in mode 0 it goes on from 0 to 65,535 */
static void count_is(uint8_t counter, uint8_t mode, uint32_t count, uint64_t pulses) {
    if (pulses == 0) return;
    uint64_t passed = mode == 2 ? (pulses - 1) % count : pulses - 1;
    same(counter == 0 ? "count 0" : counter == 1 ? "count 1" : "count 2", count_read(counter), (int64_t)((count - passed) & 65535));
}

static void scans_are(void) { same("scans", (int64_t)paced, (int64_t)(pulses1() / scan_pulses())); }

/* the counts, DACBUSY, sometimes a load, and in the last part a gate that falls or rises: it stops both counters, and has them loaded again when it rises */
static void access_of_the_guest(void) {
    if (part->mode0 != NONE) count_is(0, part->mode0, part->count0, pulses0());
    count_is(1, 2, part->count1, pulses1());
    count_is(2, 2, part->count2, pulses2());
    int busy = now - loaded_at < 100;
    same("DACBUSY", get(4) >> 7, busy);
    if (busy) busy_seen++; else idle_seen++;
    if (!busy && below(2)) {
        put(5, 0x40);
        loaded_at = now;
    }
    if (part->counting & GT12EN && below(16) == 0 && !host.board.converter.converting) {
        uint64_t pulses = pulses1();
        int falls = frozen == NEVER;
        same("DIN", dmm32_din(LENT(&host), falls ? 15 - DIN2 : 15), 0);
        if (falls) {
            scans_are();
            frozen = pulses;
        } else {
            frozen = NEVER;
            began12 = now;
            paced = 0;
        }
        gates++;
    }
    ask();
}

static void end_part(void) {
    if (frozen == NEVER) scans_are();
    if (part->tinte) same("TINTs", (int64_t)tints, (int64_t)(pulses0() / part->count0));
    put(9, 0);
    same("DIN", dmm32_din(LENT(&host), 15), 0);
    /* the scan in progress ends, and takes no time of the next part: its ends come at once */
    while (host.board.converter.converting && begun <= CHANNELS * scans) conversion_ends();
    same("conversions", (int64_t)begun, (int64_t)(CHANNELS * scans));
    empty_memory();
    put(8, 0x08);
    same("samples handed over", (int64_t)handed, (int64_t)(CHANNELS * scans));
    all_scans += (long)scans, all_tints += (long)tints, all_handed += (long)handed;
}

static void ten_minutes(void) {
    host.board = dmm32_fresh(COWRIESTEP_JUMPERS_A, 0);
    same("fresh stores", dmm32_fresh_stores(STORES(&host)), 0);
    loaded_at = (uint64_t)0 - 1000;
    for (unsigned p = 0; p < sizeof parts / sizeof *parts && differ == 0; p++) {
        part = &parts[p];
        uint64_t until = part->ticks ? now + part->ticks : BOARD_TIME, access_at = now + 1;
        begin_part();
        while (now < until && differ == 0) {
            /* the timer: the next tick that acts, the conversion's end, the guest's access; it may be late */
            uint64_t wake = next_at < end_at ? next_at : end_at;
            if (access_at < wake) wake = access_at;
            if (below(4) == 0) wake += 1 + below(400), late++;
            advance_to(wake < until ? wake : until);
            interrupt();
            if (now >= access_at) {
                access_of_the_guest();
                access_at = now + 1 + (below(3) ? below(3000000) : below(250));
            }
        }
        end_part();
    }
    printf("minutes.c: %llu ticks of the board: scans %ld, samples handed over %ld, TINTs %ld, counts read back %ld; stops", (unsigned long long)now, all_scans, all_handed, all_tints,
        counts_read);
    occurred(" by a conversion:", by_conversion);
    occurred(", by TINT:", by_tint);
    occurred(", by neither:", by_neither);
    occurred("; late timers:", late);
    occurred("; gates moved:", gates);
    occurred("; DACBUSY:", busy_seen);
    occurred(", over:", idle_seen);
    printf("; ticks_until asked %ld times\n", asked);
    same("ticks of the board", (int64_t)now, (int64_t)BOARD_TIME);
}

int main(void) {
    ten_minutes();
    printf("minutes.c: %ld answers, records and times compared, %ld differ\n", compared, differ);
    return differ != 0;
}
