/* Whether a tally adds up: sums in whole numbers of any size, by hand and with 128 bits. */
#include "time.h"

static void is(const char *what, int64_t got, int64_t want) { expect("sums.c", what, got, want); }

/* a tally, with what was held and in progress where it began, and what is now */
static void sum(int want, struct dmm32_tally t, uint16_t held_first, uint8_t first_converting, uint16_t held_now, uint8_t now_converting) {
    struct dmm32_board before = dmm32_fresh(COWRIESTEP_JUMPERS_B, 1), now = dmm32_fresh(COWRIESTEP_JUMPERS_C, 0);
    before.fifo.held = held_first, before.converter.converting = first_converting;
    now.fifo.held = held_now, now.converter.converting = now_converting;
    is("whether both sums hold", dmm32_tally_adds_up(t, before, now), want);
}

static void sums(void) {
    const uint64_t most = UINT64_MAX;
    sum(1, (struct dmm32_tally){ 0, 0, 0, 0, 0, 0 }, 0, 0, 0, 0);
    sum(0, (struct dmm32_tally){ 1, 0, 0, 0, 0, 0 }, 0, 0, 0, 0);
    sum(0, (struct dmm32_tally){ 0, 1, 0, 1, 0, 0 }, 0, 0, 0, 0);
    sum(0, (struct dmm32_tally){ 0, 0, 1, 0, 0, 0 }, 0, 0, 0, 0);
    sum(0, (struct dmm32_tally){ 0, 0, 0, 1, 0, 0 }, 0, 0, 0, 0);
    sum(0, (struct dmm32_tally){ 0, 0, 0, 0, 1, 0 }, 0, 0, 0, 0);
    sum(0, (struct dmm32_tally){ 0, 0, 0, 0, 0, 1 }, 0, 0, 0, 0);
    sum(1, (struct dmm32_tally){ 9, 7, 1, 3, 1, 2 }, 1, 0, 2, 1);                       /* 7 + 1 = 3 + 2 + 1 + 2; 9 + 0 = 7 + 1 + 1 */
    sum(0, (struct dmm32_tally){ 9, 7, 1, 3, 1, 2 }, 1, 1, 2, 1);
    sum(0, (struct dmm32_tally){ 9, 7, 1, 3, 1, 2 }, 1, 0, 3, 1);
    sum(0, (struct dmm32_tally){ 9, 7, 1, 3, 1, 2 }, 1, 0, 2, 2);                       /* 2 is no conversion in progress, nor is 255 */
    sum(1, (struct dmm32_tally){ 8, 7, 1, 3, 1, 2 }, 1, 0, 2, 255);
    sum(1, (struct dmm32_tally){ 9, 7, 1, 3, 1, 2 }, 1, 2, 2, 1);
    sum(1, (struct dmm32_tally){ 0, 0, 0, 0, 0, 0 }, 65535, 3, 65535, 0);               /* records that are no working board's */
    sum(1, (struct dmm32_tally){ most, most, 0, most, 0, 0 }, 0, 0, 0, 0);
    sum(1, (struct dmm32_tally){ most, most, 0, most, 0, 0 }, 512, 1, 512, 1);          /* beyond 2^64 on both sides */
    sum(1, (struct dmm32_tally){ most, most, 1, most, 1, 511 }, 512, 1, 0, 0);
    sum(1, (struct dmm32_tally){ most, most - 1, 1, most - 5, 4, 0 }, 0, 1, 0, 1);
    sum(1, (struct dmm32_tally){ most, most, 0, most - 512, 512, 65535 }, 65535, 0, 0, 0);
    sum(0, (struct dmm32_tally){ most, most, 0, most, 0, 0 }, 512, 0, 0, 0);            /* not where both only come to UINT64_MAX */
    sum(0, (struct dmm32_tally){ most, most, 0, most, 0, 0 }, 0, 1, 0, 0);
    sum(0, (struct dmm32_tally){ most, most, 1, most, 0, 0 }, 0, 0, 0, 0);
    sum(0, (struct dmm32_tally){ 0, 0, 0, most, 1, 0 }, 0, 0, 0, 0);                    /* nor where they are the same but for 2^64, or 2 or 3 of it */
    sum(0, (struct dmm32_tally){ 0, most, 1, most, 0, 0 }, 0, 0, 0, 0);
    sum(0, (struct dmm32_tally){ most - 2, most - 2, 0, most, most, most }, 0, 0, 0, 0);
    sum(0, (struct dmm32_tally){ most - 1, most, most, most, 0, 0 }, 0, 0, 0, 0);
    sum(0, (struct dmm32_tally){ 0, 0, 0, most, most, 2 }, 0, 0, 0, 0);
}

typedef unsigned __int128 wide;

static uint64_t random_term(void) {
    uint64_t any = (uint64_t)below(UINT32_MAX) << 32 | below(UINT32_MAX);
    return below(3) ? below(3) : below(2) ? UINT64_MAX - below(3) : any;
}

/* Random terms: ended and begun are what makes their sums hold, in 64 bits or one off; 128 bits say whether they do. */
static void random_sums(void) {
    long hold = 0, round = 0;
    for (int i = 0; i < 200000; i++) {
        struct dmm32_tally t = { 0, 0, random_term(), random_term(), random_term(), random_term() };
        uint16_t h = (uint16_t)below(513), k = (uint16_t)below(513);
        uint8_t p = (uint8_t)below(2), q = (uint8_t)below(2);
        t.ended = t.read + k + t.lost + t.cleared - h + (below(8) == 0) - (below(8) == 0);
        t.begun = t.ended + t.abandoned + q - p + (below(8) == 0);
        wide right = (wide)t.read + k + t.lost + t.cleared, done = (wide)t.ended + t.abandoned + q;
        int want = (wide)t.ended + h == right && (wide)t.begun + p == done;
        hold += want, round += !want && (uint64_t)right == t.ended + h && (uint64_t)done == t.begun + p;
        sum(want, t, h, p, k, q);
    }
    printf("sums.c: random sums");
    occurred(" that hold:", hold);
    occurred(", but for 2^64:", round);
    printf("\n");
}

int main(void) {
    sums();
    random_sums();
    printf("sums.c: %ld sums compared, %ld differ\n", compared, differ);
    return differ != 0;
}
