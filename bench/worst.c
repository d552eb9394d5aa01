/* The worst time of an L1 fit of 168 hours: what a step of the search costs, and the most steps times that. In bench, after
 * `tools/build trend_filter`:
 * cc -O2 -I../bindings/c worst.c ../target/staticlib/libtrend_filter.a -lm -o ../target/worst && ../target/worst
 *
 * A number after it is that of the rounds. Times are the processor time of the process: what other programs take is not in them.
 * A step's cost is that of the fit with max_iter `to` less that with max_iter `from`, divided by the steps between; each round takes both.
 * Printed is the median of the rounds, and between which figures eight rounds in ten lie. How many trials the line search makes in those
 * steps was counted in a copy of the Rust module that notes them; its bits are the port's. A trial costs most where its point is inside the
 * bounds, and in the dearest steps all 20 are. Subnormal: many products are below 2^-1022, which take the machine far longer.
 * By count: what a step would cost if all its products and quotients were so.
 * The longest searches that are known are run again, and their steps compared: the status is 1 where one differs. */
#include "rounds.h"
#include "trend_filter.h"
#include <inttypes.h>
#include <math.h>
#include <stdio.h>
#include <stdlib.h>
#include <time.h>

#define N 168
#define LEAST 0x1p-1074 /* the least tol: none makes a search longer */
#define PRODUCTS 303 /* of a place in a step, quotients too: order 2 has 13 in each of 20 trials and at most 43 beside them */

/* Place i of the series is ((i * a) mod p - p / 2, from 85 on + s) * 2^-e; lam is c * 2^-f. */
struct input { uint32_t order; int a, p, s, e, c, f; };

struct window { const char *name, *trials; struct input in; uint64_t from, to; };

static const struct window windows[] = {
    {"typical", "1.7", {1, 7919, 20011, 5000, 0, 1, -14}, 1, 20},
    {"typical", "1.5", {2, 7919, 20011, 5000, 0, 1, -16}, 1, 23},
    {"dearest", "20", {1, 7919, 20011, 5000, 20, 1, 12}, 29, 39},
    {"dearest", "20", {2, 7919, 20011, 5000, 20, 1, 12}, 25, 35},
    {"dearest, subnormal", "20", {1, 2513, 21, 18665, 0, 539, 532}, 23, 29},
    {"dearest, subnormal", "20", {2, 7703, 9935, 26363, 0, 856, 535}, 72, 74},
};
enum { WINDOWS = sizeof windows / sizeof *windows };

static double y[N], trend[N], cycle[N], dual[N], work[TREND_FILTER_WORK(N, TREND_FILTER_L1)], numbers[TREND_FILTER_NUMBERS], lam;
static uint32_t knots[N], marks[TREND_FILTER_MARKS(N, TREND_FILTER_L1)];
static uint64_t counts[TREND_FILTER_COUNTS];
static size_t n;

static void make(const struct input *a) {
    n = N;
    for (int i = 0; i < N; i++) y[i] = ldexp((double)((i * a->a) % a->p - a->p / 2 + (i > 84 ? a->s : 0)), -a->e);
    lam = ldexp((double)a->c, -a->f);
}

static double now(void) {
    struct timespec t;
    clock_gettime(CLOCK_PROCESS_CPUTIME_ID, &t);
    return (double)t.tv_sec * 1e6 + (double)t.tv_nsec * 1e-3;
}

/* The microseconds of a fit. */
static double timed(uint32_t order, uint64_t max_iter) {
    double from = now();
    uint32_t refused = trend_filter_fit(y, n, lam, LEAST, max_iter, order, TREND_FILTER_L1, trend, n, cycle, n, knots, n, dual, n, work,
                                        TREND_FILTER_WORK(n, TREND_FILTER_L1), marks, TREND_FILTER_MARKS(n, TREND_FILTER_L1), numbers,
                                        counts);
    double took = now() - from;
    if (refused) exit((fprintf(stderr, "refused %" PRIu32 "\n", refused), 1));
    return took;
}

/* What a step costs, in microseconds, and a fit of one step; the median of the rounds is returned. */
static double cost(const struct window *w, size_t rounds) {
    double *step = malloc(8 * rounds), *one = malloc(8 * rounds);
    if (!step || !one) exit((perror("malloc"), 2));
    make(&w->in);
    for (size_t r = 0; r < rounds; r++) {
        one[r] = timed(w->in.order, 1);
        double less = timed(w->in.order, w->from), more = timed(w->in.order, w->to);
        if (counts[TREND_FILTER_N_ITER] != w->to) exit((fprintf(stderr, "%s: the search ends before step %" PRIu64 "\n", w->name, w->to), 1));
        step[r] = (more - less) / (double)(w->to - w->from);
    }
    qsort(step, rounds, 8, rising), qsort(one, rounds, 8, rising);
    double median = step[rounds / 2];
    printf("%-20s %5" PRIu32 " %7s %8.2f %8.2f to %-8.2f %9.1f\n", w->name, w->in.order, w->trials, median, step[rounds / 10],
           step[rounds * 9 / 10], one[rounds / 2]);
    free(step), free(one);
    return median;
}

/* The nanoseconds of a product or quotient below 2^-1022, whichever takes longer. */
static double slow(void) {
    volatile double small = 0x1p-600, large = 0x1p+600, x;
    double least[2] = {HUGE_VAL, HUGE_VAL};
    for (int r = 0; r < 200; r++) {
        double from = now();
        for (int i = 0; i < 1000; i++) x = small * 0x1.8p-440;
        double then = now();
        for (int i = 0; i < 1000; i++) x = 0x1.8p-440 / large;
        least[0] = fmin(least[0], then - from), least[1] = fmin(least[1], now() - then);
    }
    (void)x;
    return fmax(least[0], least[1]);
}

/* The most steps for a limit times what each kind of step costs. */
static void ceilings(const double us[4]) {
    static const uint64_t limits[] = {100, 10000, UINT64_MAX};
    printf("\n%-20s %10s %12s %12s %12s %12s\n", "max_iter", "most steps", "typical, s", "dearest, s", "subnormal, s", "by count, s");
    for (int i = 0; i < 3; i++) {
        uint64_t needs[TREND_FILTER_NEEDS];
        if (trend_filter_needs(N, limits[i], 2, TREND_FILTER_L1, needs)) exit(1);
        uint64_t steps = needs[TREND_FILTER_NEEDS_STEPS];
        printf("%-20" PRIu64 " %10" PRIu64, limits[i], steps);
        for (int j = 0; j < 4; j++) printf(" %12.4f", us[j] * 1e-6 * (double)steps);
        printf("\n");
    }
}

/* A search that is known runs again: whether it takes as many steps and improvements as it did. */
static int again(const char *name, uint32_t order, uint64_t n_iter, uint64_t improvements) {
    double took = timed(order, UINT64_MAX);
    uint64_t steps = counts[TREND_FILTER_N_ITER], better = counts[TREND_FILTER_IMPROVEMENTS];
    printf("%-22s %5" PRIu32 " %8" PRIu64 " %14" PRIu64 " %10.1f", name, order, steps, better, took * 1e-3);
    int same = steps == n_iter && better == improvements;
    printf("%s\n", same ? "" : "  DIFFERS");
    return same;
}

/* A series that is 0 and from a place on height. */
static void jump(size_t places, size_t at, double height, double weight) {
    n = places, lam = weight;
    for (size_t i = 0; i < n; i++) y[i] = i < at ? 0 : height;
}

static int longest(void) {
    printf("\n%-22s %5s %8s %14s %10s\n", "longest search", "order", "steps", "improvements", "ms");
    jump(N, 84, 2109490338, 0x1.e3850359634b2p+32);
    int same = again("168 places", 1, 3841, 1152);
    jump(2, 1, 0x1.f800589de6791p+31, 0x1.f800589de6791p+30 * 0x1.c0bbb4e2328f5p-1);
    return again("2 places", 1, 3439, 982) && same;
}

int main(int argc, char **argv) {
    long rounds = argc > 1 ? atol(argv[1]) : 501;
    if (rounds < 1) return fprintf(stderr, "worst [ROUNDS]: at least one round\n"), 2;
    printf("%d places, %ld rounds; us of a step: median, eight in ten; us of a fit of one step\n", N, rounds);
    printf("%-20s %5s %7s %8s %20s %9s\n", "step", "order", "trials", "median", "eight in ten", "one step");
    double us[4] = {0}, ns = slow();
    for (int i = 0; i < WINDOWS; i++) us[i / 2] = fmax(us[i / 2], cost(&windows[i], (size_t)rounds));
    us[3] = us[1] + ns * 1e-3 * PRODUCTS * N;
    printf("%-20s %5d %7s %8.0f   %.1f ns for each product or quotient\n", "by count", 2, "20", us[3], ns);
    ceilings(us);
    return longest() ? 0 : 1;
}
