/*
 * A C host of the static library: compares the bits of the volts of every A/D code at every range code with exact fractions, and with the manual's
 * formula as the processor divides. Prints what it compared; the exit status is 1 where anything differs.
 *
 * volts [unoptimised]     The NaN of a refused range code has the bits of C's NAN, as a compiler works it out; in a library that was compiled
 *                         unoptimised, those of 0.0 / 0.0 as the processor divides, which are the same but for the sign.
 */
#include <inttypes.h>
#include <math.h>
#include <stdio.h>
#include <string.h>

#include "cowriestep.h"

static long compared, differ;

static void result(int same, const char *what, int64_t code, int64_t range) {
    compared++;
    if (!same && ++differ <= 10) printf("volts.c: differs: %s(%" PRId64 ", %" PRId64 ")\n", what, code, range);
}

/* The bits tell -0.0 from 0.0 and one NaN from another, which their values do not. */
static uint64_t bits_of(double x) {
    uint64_t bits;
    memcpy(&bits, &x, sizeof bits);
    return bits;
}

/* The column "Full-Scale Range" of the manual's table in 9.2, in millivolts, 0 for an invalid setting. Codes 12 to 15 are unipolar. */
static const int32_t full_scale[16] = { 5000, 2500, 1250, 625, 0, 0, 0, 0, 10000, 5000, 2500, 1250, 10000, 5000, 2500, 1250 };

/* Whether x is exactly numerator / denominator: the value of a finite double is mantissa * 2^exponent. Zero has to be +0.0. */
static int is_fraction(double x, int64_t numerator, int64_t denominator) {
    uint64_t bits = bits_of(x);
    int exponent = (int)(bits >> 52 & 2047);
    uint64_t mantissa = bits & ((UINT64_C(1) << 52) - 1);
    if (numerator == 0) return bits == 0;
    if (exponent == 0 || exponent == 2047) return 0;      /* neither subnormal nor infinite nor a NaN */
    mantissa |= UINT64_C(1) << 52;
    exponent -= 1075;
    while (mantissa % 2 == 0) mantissa /= 2, exponent++;
    if (exponent < -62 || exponent > 30) return 0;
    __int128 left = (__int128)mantissa * denominator, right = numerator < 0 ? -(__int128)numerator : numerator;
    if (exponent > 0) left <<= exponent; else right <<= -exponent;
    return left == right && (bits >> 63) == (numerator < 0);
}

/* A division by the processor: the compiler does not know by what, and cannot make a multiplication of it. */
__attribute__((noinline)) double quotient(double x, double by) {
    volatile double divisor = by;
    return x / divisor;
}

/* The formulas of the manual's chapter 9.3. */
__attribute__((noinline)) double divided_volts(int32_t code, uint32_t range) {
    double part = range < 12 ? quotient(code, 32768.0) : quotient(code + 32768, 65536.0);
    return part * quotient(full_scale[range], 1000.0);
}

static void volts_at(uint32_t range, uint64_t refused) {
    int known = range < 16 && full_scale[range] != 0;
    result(dmm32_volts_refusal(range) == (known ? 0 : COWRIESTEP_REFUSED_RANGE_CODE), "refusal", 0, range);
    for (int32_t code = -32768; code <= 32767; code++) {
        double x = dmm32_volts((int16_t)code, range);
        result(bits_of(x) == (known ? bits_of(divided_volts(code, range)) : refused), "volts, divided", code, range);
        if (!known) continue;
        if (range < 12) result(is_fraction(x, (int64_t)code * full_scale[range], INT64_C(32768) * 1000), "volts", code, range);
        else result(is_fraction(x, (int64_t)(code + 32768) * full_scale[range], INT64_C(65536) * 1000), "volts", code, range);
    }
}

int main(int argc, char **argv) {
    static const uint32_t beyond[] = { 256, 264, 271, 65535, 65536, 65544, 2147483648u, 4294967295u };
    int unoptimised = argc > 1 && strcmp(argv[1], "unoptimised") == 0;
    uint64_t refused = bits_of(unoptimised ? quotient(0.0, 0.0) : NAN);
    for (uint32_t range = 0; range < 256; range++) volts_at(range, refused);
    for (unsigned i = 0; i < sizeof beyond / sizeof *beyond; i++) volts_at(beyond[i], refused);
    printf("volts.c: %ld comparisons of volts%s, %ld differ\n", compared, unoptimised ? ", library unoptimised" : "", differ);
    return differ != 0;
}
