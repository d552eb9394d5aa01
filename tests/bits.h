/* For the test drivers: a double's bits and back, and random numbers by splitmix64. */
#ifndef TESTS_BITS_H
#define TESTS_BITS_H

#include <stdint.h>
#include <string.h>

static inline uint64_t bits(double x) { uint64_t b; memcpy(&b, &x, 8); return b; }
static inline double of_bits(uint64_t b) { double x; memcpy(&x, &b, 8); return x; }

/* What splitmix64 makes of a number of its sequence, whose steps are STEP. */
static const uint64_t STEP = UINT64_C(0x9e3779b97f4a7c15);
static inline uint64_t mixed(uint64_t z)
{
    z = (z ^ (z >> 30)) * UINT64_C(0xbf58476d1ce4e5b9);
    z = (z ^ (z >> 27)) * UINT64_C(0x94d049bb133111eb);
    return z ^ (z >> 31);
}

static uint64_t state; /* the seed, before the first */
static inline uint64_t rnd(void) { return mixed(state += STEP); }

#endif
