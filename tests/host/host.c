/*
 * A C host of the static library: compares output requests with a search for the nearest code. Prints what it compared; the exit status is 1
 * where anything differs.
 */
#include <inttypes.h>
#include <stdio.h>

#include "cowriestep.h"

static long compared, differ;

static void result(int same, const char *what, int64_t a, int64_t b, int64_t c) {
    compared++;
    if (!same && ++differ <= 10) printf("host.c: differs: %s(%" PRId64 ", %" PRId64 ", %" PRId64 ")\n", what, a, b, c);
}

/* The output ranges: low end and high end, in microvolts. Code c puts out low + c * (high - low) / 4096. */
static const int64_t low[4] = { -5000000, -10000000, 0, 0 }, high[4] = { 5000000, 10000000, 5000000, 10000000 };

/* 4096 times the distance of code c from the voltage */
static int64_t distance(int64_t microvolts, uint32_t range, int64_t c) {
    int64_t d = c * (high[range] - low[range]) - (microvolts - low[range]) * 4096;
    return d < 0 ? -d : d;
}

/* The nearest of all codes from 0 to last, by looking at each; of two that are equally near, the upper. */
static int64_t nearest_of_all(int64_t microvolts, uint32_t range, int64_t last) {
    int64_t best = 0;
    for (int64_t c = 1; c <= last; c++)
        if (distance(microvolts, range, c) <= distance(microvolts, range, best)) best = c;
    return best;
}

/* The same by halving: the distance falls up to the nearest code and rises after it. */
static int64_t nearest_by_halving(int64_t microvolts, uint32_t range, int64_t last) {
    int64_t from = 0, to = last;
    while (from < to) {
        int64_t middle = (from + to) / 2;
        if (distance(microvolts, range, middle + 1) <= distance(microvolts, range, middle)) from = middle + 1; else to = middle;
    }
    return from;
}

static uint32_t expected_code(int32_t microvolts, uint32_t range, int whole) {
    if (range > 3) return 65536 + COWRIESTEP_REFUSED_OUTPUT;
    if (microvolts < low[range]) return 65536 + COWRIESTEP_REFUSED_VOLTAGE;
    int64_t c = whole ? nearest_of_all(microvolts, range, 5000) : nearest_by_halving(microvolts, range, 4000000);
    return c <= 4095 ? (uint32_t)c : 65536 + COWRIESTEP_REFUSED_VOLTAGE;
}

static void request(int32_t microvolts, uint32_t range, uint32_t channel, int whole) {
    uint32_t code = expected_code(microvolts, range, whole);
    uint32_t bytes = channel > 3 ? 65536 + COWRIESTEP_REFUSED_OUTPUT : code < 65536 ? (code & 255) | (code >> 8 | channel << 6) << 8 : code;
    result(dmm32_output_code(microvolts, range) == code, "output_code", microvolts, range, 0);
    result(dmm32_output_bytes(microvolts, range, channel) == bytes, "output_bytes", microvolts, range, channel);
}

/* splitmix64, with a fixed seed */
static uint64_t state = 20260;
static uint64_t random64(void) {
    uint64_t z = state += UINT64_C(0x9E3779B97F4A7C15);
    z = (z ^ z >> 30) * UINT64_C(0xBF58476D1CE4E5B9);
    z = (z ^ z >> 27) * UINT64_C(0x94D049BB133111EB);
    return z ^ z >> 31;
}

int main(void) {
    /* around every code and every half between two codes */
    for (uint32_t range = 0; range < 5; range++)
        for (int64_t half = -4; half <= 8200; half++) {
            int64_t at = low[range % 4] + half * (high[range % 4] - low[range % 4]) / 8192;
            for (int64_t off = -2; off <= 2; off++) request((int32_t)(at + off), range, (uint32_t)(half & 3), 0);
        }
    static const int32_t edges[] = { INT32_MIN, INT32_MIN + 1, -10000001, -10000000, -5000001, -5000000, -1, 0, 1, 4998779, 4998780, 5000000, 10000000, 20000000, INT32_MAX };
    for (uint32_t range = 0; range < 8; range++)
        for (unsigned i = 0; i < sizeof edges / sizeof *edges; i++)
            for (uint32_t channel = 0; channel < 8; channel++) request(edges[i], range, channel, edges[i] < 30000000);
    /* at random: within 12 V of 0 V, or anywhere; one in 64 by looking at every code */
    for (long i = 0; i < 2000000; i++) {
        uint64_t r = random64();
        int32_t microvolts = i % 16 == 0 ? (int32_t)(uint32_t)random64() : (int32_t)(random64() % 24000001) - 12000000;
        uint32_t range = r % 32 == 0 ? (uint32_t)(r >> 32) : (uint32_t)(r >> 32) % 4;
        uint32_t channel = r / 32 % 32 == 0 ? (uint32_t)(r >> 16) : (uint32_t)(r >> 16) % 4;
        request(microvolts, range, channel, i % 64 == 1 && i % 16 != 0);
    }
    printf("host.c: %ld comparisons of output requests\n", compared);
    printf("host.c: %ld differ\n", differ);
    return differ != 0;
}
