/* Compares trend_filter_crossings and trend_filter_nearest_knot with document 02's A9, written again here from its words.
 *
 *     tools/build trend_filter && cc -O2 -Ibindings/c -o target/crossings_driver tests/crossings/driver.c target/staticlib/libtrend_filter.a && target/crossings_driver
 *
 * Crossings: every trend of up to five places over eleven values (NaNs of both signs, the infinities, the least and the greatest, -0, +0, 1 and
 * its neighbours), with every one of these as the level and lists one short, exact and longer; random trends of up to 40 places; lengths
 * around 65,536. Nearest knots: every list of up to four numbers of eight, in any order, for trends of up to six places and every place
 * up to beyond them; random lists of up to 24 numbers. Two numbers may follow: how many hundred thousand random cases each call gets
 * (default 10), and a seed. After each call every place of the list and of found, and of the guards around both, is compared, and what was
 * only lent to be read. The last line tells the counts; at the first difference the driver prints it and ends with status 1. */
#include <math.h>
#include <stdint.h>
#include <stdio.h>
#include <stdlib.h>
#include <string.h>
#include "trend_filter.h"
#include "../bits.h"

enum { MOST = 65600, GUARD = 4, FOUND = 2 };

static double trend[MOST], trend_before[MOST];
static uint32_t list[MOST + 2 * GUARD], list_before[MOST + 2 * GUARD], knots[MOST], knots_before[MOST];
static uint64_t found[FOUND + 2 * GUARD], found_before[FOUND + 2 * GUARD];
static uint64_t cases, answers[4], refusals[2];

/* ---- the words of the request */

/* Where trend[i] is at or below the level and trend[i+1] above it, or trend[i] above it and trend[i+1] at or below. */
static int crosses(double level, double here, double next)
{
    int up = here <= level && next > level, down = here > level && next <= level;
    return up || down;
}

/* First 18 for a level that isn't finite, then 19 for an n above 65,536 or a list shorter than n. */
static uint32_t refusal(double level, size_t n, size_t places)
{
    if (!isfinite(level)) return 18;
    return n > 65536 || places < n ? 19 : 0;
}

static uint64_t distance(uint64_t a, uint64_t b) { return a > b ? a - b : b - a; }

/* The smallest distance, and of those at that distance the lowest. */
static uint32_t nearest(uint64_t place, size_t count)
{
    uint64_t least = UINT64_MAX;
    uint32_t lowest = UINT32_MAX;
    for (size_t j = 0; j < count; j++) if (distance(knots[j], place) < least) least = distance(knots[j], place);
    for (size_t j = 0; j < count; j++) if (distance(knots[j], place) == least && knots[j] < lowest) lowest = knots[j];
    return lowest;
}

/* ---- one call and what it leaves */

static void fill(size_t places)
{
    for (size_t i = 0; i < places + 2 * GUARD; i++) list[i] = list_before[i] = (uint32_t)rnd();
    for (size_t i = 0; i < FOUND + 2 * GUARD; i++) found[i] = found_before[i] = rnd();
}

static void differs(const char *what, size_t n, size_t count)
{
    printf("%s differs, %llu cases before it\n", what, (unsigned long long)cases);
    for (size_t i = 0; i < n && i < 50; i++) printf("trend[%zu] %a\n", i, trend_before[i]);
    for (size_t i = 0; i < count && i < 50; i++) printf("knots[%zu] %u\n", i, (unsigned)knots_before[i]);
    exit(1);
}

static void compare(const char *what, size_t n, size_t places, size_t count)
{
    if (memcmp(found, found_before, sizeof found)) differs(what, n, count);
    if (memcmp(list, list_before, (places + 2 * GUARD) * sizeof list[0])) differs(what, n, count);
    if (memcmp(trend, trend_before, n * sizeof trend[0])) differs(what, n, count);
    if (memcmp(knots, knots_before, count * sizeof knots[0])) differs(what, n, count);
    cases++;
}

static void check_crossings(double level, size_t n, size_t places)
{
    uint32_t want = refusal(level, n, places);
    uint64_t many = 0;
    fill(places);
    uint32_t got = trend_filter_crossings(level, trend, n, list + GUARD, places, found + GUARD);
    if (!want) {
        for (size_t i = 0; i + 1 < n; i++) if (crosses(level, trend[i], trend[i + 1])) list_before[GUARD + many++] = (uint32_t)i;
        found_before[GUARD] = many;
        answers[many > 0]++;
    } else {
        refusals[want - 18]++;
    }
    if (got != want) { printf("%u and not %u: level %a, %zu places lent\n", (unsigned)got, (unsigned)want, level, places); differs("the answer", n, 0); }
    compare("what a list of crossings leaves", n, places, 0);
}

static void check_nearest(uint64_t place, size_t n, size_t count)
{
    uint32_t want = n > 65536 || place >= n ? 19 : 0;
    fill(0);
    uint32_t got = trend_filter_nearest_knot(place, trend, n, knots, count, found + GUARD);
    if (!want) {
        found_before[GUARD] = count > 0;
        found_before[GUARD + 1] = count > 0 ? nearest(place, count) : 0;
        answers[2 + (count > 0)]++;
    } else {
        refusals[1]++;
    }
    if (got != want) { printf("%u and not %u: place %llu of %zu\n", (unsigned)got, (unsigned)want, (unsigned long long)place, n); differs("the answer", 0, count); }
    compare("what a nearest knot leaves", 0, 0, count);
}

/* ---- the cases */

static const uint64_t values[] = {
    0xfff8000000000001, /* NaNs of both signs, one signalling */
    0x7ff0000000000001,
    0xfff0000000000000, /* -infinity */
    0xffefffffffffffff, /* the least */
    0x8000000000000000, /* -0, +0 */
    0x0000000000000000,
    0x3fefffffffffffff, /* 1 and its neighbours */
    0x3ff0000000000000,
    0x3ff0000000000001,
    0x7fefffffffffffff, /* the greatest */
    0x7ff0000000000000, /* infinity */
};
enum { VALUES = sizeof values / sizeof values[0], NUMBERS = 8 };
static const uint32_t numbers[NUMBERS] = {0, 1, 2, 3, 5, 6, 0x80000000, 0xffffffff};

static void put_trend(size_t i, uint64_t b)
{
    memcpy(&trend[i], &b, 8); /* by its bits: a copy of a double could make a signalling NaN quiet */
    memcpy(&trend_before[i], &b, 8);
}

static void put_knot(size_t j, uint32_t k) { knots[j] = knots_before[j] = k; }

static void every_trend(size_t n, size_t from)
{
    if (from < n) {
        for (int v = 0; v < VALUES; v++) put_trend(from, values[v]), every_trend(n, from + 1);
        return;
    }
    for (int v = 0; v < VALUES; v++) {
        check_crossings(of_bits(values[v]), n, n);
        check_crossings(of_bits(values[v]), n, n + 1 + rnd() % 3);
        if (n) check_crossings(of_bits(values[v]), n, n - 1);
    }
}

static void every_list(size_t count, size_t from)
{
    if (from < count) {
        for (int v = 0; v < NUMBERS; v++) put_knot(from, numbers[v]), every_list(count, from + 1);
        return;
    }
    for (size_t n = 0; n <= 6; n++) for (uint64_t place = 0; place <= n + 1; place++) check_nearest(place, n, count);
    check_nearest(UINT64_MAX, 6, count);
    check_nearest((uint64_t)1 << 32, 6, count);
}

static uint64_t any_value(uint64_t level)
{
    switch (rnd() % 8) {
    case 0: return values[rnd() % VALUES];
    case 1: return rnd();
    case 2: case 3: return level;
    case 4: return level + 1;
    case 5: return level - 1;
    case 6: return level ^ 0x8000000000000000;
    default: return bits((double)(int64_t)(rnd() % 2001) - 1000);
    }
}

static void random_trend(void)
{
    uint64_t level = any_value(rnd());
    size_t n = rnd() % 41, places = n + (rnd() % 8 ? rnd() % 6 : 0);
    if (n && rnd() % 32 == 0) places = rnd() % n;
    for (size_t i = 0; i < n; i++) put_trend(i, any_value(level));
    check_crossings(of_bits(level), n, places);
}

static void random_list(void)
{
    size_t n = rnd() % 16 ? 1 + rnd() % 200 : rnd() % MOST, count = rnd() % 25;
    uint64_t place = rnd() % 16 ? rnd() % (n + 1) : rnd() >> rnd() % 64;
    uint32_t reach = 1 + (uint32_t)(rnd() % 8 ? rnd() % (n + 8) : rnd() % UINT32_MAX);
    for (size_t j = 0; j < count; j++) put_knot(j, (uint32_t)(rnd() % reach));
    check_nearest(place, n, count);
}

static void around_the_bound(void)
{
    for (size_t i = 0; i < MOST; i++) put_trend(i, values[rnd() % VALUES]);
    for (size_t n = 65533; n <= 65539; n++) {
        for (int v = 0; v < VALUES; v++) for (size_t places = n - 2; places <= n + 2; places++) check_crossings(of_bits(values[v]), n, places);
        for (uint64_t place = n - 2; place <= n + 2; place++) for (size_t count = 0; count < 4; count++) check_nearest(place, n, count);
    }
    for (size_t j = 0; j < MOST; j++) put_knot(j, (uint32_t)(rnd() % 65536));
    for (int i = 0; i < 200; i++) check_nearest(rnd() % 65536, 65536, MOST);
}

int main(int argc, char **argv)
{
    long wanted = 100000 * (argc > 1 ? atol(argv[1]) : 10);
    state = argc > 2 ? strtoull(argv[2], NULL, 10) : 1;
    for (size_t n = 0; n <= 5; n++) every_trend(n, 0);
    for (size_t count = 0; count <= 4; count++) every_list(count, 0);
    around_the_bound();
    for (long i = 0; i < wanted; i++) random_trend(), random_list();
    /* nothing lent at all */
    found[GUARD] = 7;
    if (trend_filter_crossings(1, NULL, 0, NULL, 0, found + GUARD) || found[GUARD] != 0) differs("an empty trend", 0, 0);
    if (trend_filter_nearest_knot(0, NULL, 0, NULL, 0, found + GUARD) != 19) differs("no place of an empty trend", 0, 0);
    cases += 2;
    printf("no crossing %llu, crossings %llu, no knot %llu, a knot %llu, refused with 18 %llu, with 19 %llu\n", (unsigned long long)answers[0], (unsigned long long)answers[1],
        (unsigned long long)answers[2], (unsigned long long)answers[3], (unsigned long long)refusals[0], (unsigned long long)refusals[1]);
    printf("%llu cases, 0 differences\n", (unsigned long long)cases);
    return 0;
}
