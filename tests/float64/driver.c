/* Compares the proved helpers of crates float64 and square_root with the machine's own, bit by bit (a NaN matches any NaN).
 *
 *     tools/build c_tests && cc -O2 -o target/float64_driver tests/float64/driver.c target/staticlib/libc_tests.a -lm && target/float64_driver
 *
 * Inputs: every special value; every power of two, subnormal ones too, with its neighbours, in both signs; random
 * subnormals; neighbours of squares and of half ways between two roots; random bit patterns. Two numbers may follow:
 * how many millions of inputs each of the three random kinds has (default 4), and a seed. Each input goes to sqrt, abs
 * and is_finite, and with a second one, picked to be equal, opposite, close, special or any, to max, min and clamp.
 * The last line tells the counts; at the first difference the driver prints it and ends with status 1. */
#include <math.h>
#include <stdbool.h>
#include <stdint.h>
#include <stdio.h>
#include <stdlib.h>
#include <string.h>
#include "../bits.h"

double float64_sqrt(double x);
double float64_abs(double x);
bool float64_is_finite(double x);
double float64_max(double a, double b);
double float64_min(double a, double b);
double float64_clamp(double z, double lam);

static const uint64_t special[] = {
    0x0000000000000000, /* +0 */
    0x0000000000000001, /* the least subnormal */
    0x0000000000000002,
    0x0000000000000003,
    0x0008000000000000,
    0x000ffffffffffffe,
    0x000fffffffffffff, /* the largest subnormal */
    0x0010000000000000, /* the least normal */
    0x0010000000000001,
    0x3fefffffffffffff, /* 1, its neighbours, 2, 4 */
    0x3ff0000000000000,
    0x3ff0000000000001,
    0x4000000000000000,
    0x4010000000000000,
    0x7feffffffffffffe,
    0x7fefffffffffffff, /* the largest */
    0x7ff0000000000000, /* infinity */
    0x7ff0000000000001, /* NaNs, signalling and quiet */
    0x7ff7ffffffffffff,
    0x7ff8000000000000,
    0x7fffffffffffffff,
};
enum { SPECIALS = sizeof special / sizeof special[0] };
static const uint64_t MINUS = 0x8000000000000000;

static unsigned long long inputs, subnormals, calls;

static void same(const char *what, double x, double y, double got, double want)
{
    calls++;
    if (bits(got) == bits(want) || (isnan(got) && isnan(want)))
        return;
    printf("%s at %016llx %016llx gives %016llx, not %016llx\n", what, (unsigned long long)bits(x),
           (unsigned long long)bits(y), (unsigned long long)bits(got), (unsigned long long)bits(want));
    exit(1);
}

static void pair(double a, double b)
{
    /* fmax and fmin leave the sign of a zero open, and may spread a signalling NaN: here the left operand stays at
     * equality, and any NaN gives the other operand */
    double other = isnan(a) ? b : a;
    bool plain = a != b && !isnan(a) && !isnan(b);
    same("max", a, b, float64_max(a, b), plain ? fmax(a, b) : other);
    same("min", a, b, float64_min(a, b), plain ? fmin(a, b) : other);
    same("clamp", a, b, float64_clamp(a, b), a < -b ? -b : a > b ? b : a);
    if (b > 0 && !isnan(a) && fabs(a) != b)
        same("clamp", a, b, float64_clamp(a, b), fmin(fmax(a, -b), b));
}

static void one(uint64_t b)
{
    double x = of_bits(b);
    uint64_t r = rnd();
    inputs++;
    subnormals += fpclassify(x) == FP_SUBNORMAL;
    same("sqrt", x, x, float64_sqrt(x), sqrt(x));
    same("abs", x, x, float64_abs(x), fabs(x));
    same("is_finite", x, x, float64_is_finite(x), isfinite(x) ? 1 : 0);
    switch (r % 6) {
    case 0: pair(x, x); break;
    case 1: pair(x, of_bits(b ^ MINUS)); break;
    case 2: pair(x, of_bits(b + 1)); break;
    case 3: pair(x, of_bits(b - 1)); break;
    case 4: pair(x, of_bits(special[r / 6 % SPECIALS] ^ (rnd() & MINUS))); break;
    default: pair(x, of_bits(rnd())); break;
    }
}

static void both(uint64_t b)
{
    one(b);
    one(b ^ MINUS);
}

int main(int argc, char **argv)
{
    uint64_t each = (argc > 1 ? strtoull(argv[1], 0, 10) : 4) * 1000000;
    state = argc > 2 ? strtoull(argv[2], 0, 10) : 1;

    for (int i = 0; i < SPECIALS; i++) {
        both(special[i]);
        for (int j = 0; j < SPECIALS; j++)
            for (int s = 0; s < 4; s++)
                pair(of_bits(special[i] ^ (s & 1 ? MINUS : 0)), of_bits(special[j] ^ (s & 2 ? MINUS : 0)));
    }
    for (int k = -1074; k < 1024; k++) {
        uint64_t b = bits(ldexp(1, k));
        for (int d = -2; d <= 2; d++)
            both(b + d);
    }
    for (uint64_t i = 0; i < each; i++) /* subnormals of every length */
        one((rnd() & 0xfffffffffffff) >> rnd() % 52 | (rnd() % 16 ? 0 : MINUS));
    for (uint64_t i = 0; i < each; i++) { /* squares of roots and of half ways, of every exponent and of few or many digits */
        uint64_t digits = (rnd() >> 11 | 1ull << 52) >> rnd() % 40;
        long double root = (long double)digits + (i & 1 ? 0.5L : 0);
        double square = (double)(root * root);
        one(bits(ldexp(square, (int)(rnd() % 1960) - 1070)) + rnd() % 5 - 2);
    }
    for (uint64_t i = 0; i < each; i++) /* any bits */
        one(rnd());

    printf("%llu cases, 0 differences (%llu inputs, %llu of them subnormal)\n", calls, inputs, subnormals);
    return 0;
}
