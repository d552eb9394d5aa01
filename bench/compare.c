/* Whole fits of two static libraries in one process, by turns: old_fit and new_fit are their C entries (see compare).
 * Both are lent five counts, of which a build from before the reason was added writes four; no count is compared. A build from before
 * dual was added is called without it.
 * Each round times both, the one first in one round and second in the next; printed are the change of the least, of the
 * median, and the median of the rounds' own ratios, which is the figure to read. */
#include "rounds.h"
#include "trend_filter.h"
#include <stdio.h>
#include <stdlib.h>
#include <time.h>

typedef __typeof__(trend_filter_fit) entry;
entry old_fit, new_fit;

/* The entry before dual was added. */
typedef uint32_t entry_before_dual(const double *y, size_t y_len, double lam, double tol, uint64_t max_iter, uint32_t order,
                                   uint32_t penalty, double *trend, size_t trend_len, double *cycle, size_t cycle_len,
                                   uint32_t *knots, size_t knots_len, double *work, size_t work_len, uint32_t *marks,
                                   size_t marks_len, double numbers[5], uint64_t counts[5]);

struct kind { const char *name; double share; uint32_t order, penalty; };

static const struct kind kinds[] = {
    {"L1, order 1, lam_max*0.5", 0.5, 1, 1},   {"L1, order 1, lam_max*0.1", 0.1, 1, 1},
    {"L1, order 1, lam_max*0.01", 0.01, 1, 1}, {"L1, order 2, lam_max*0.5", 0.5, 2, 1},
    {"L1, order 2, lam_max*0.1", 0.1, 2, 1},   {"L1, order 2, lam_max*0.01", 0.01, 2, 1},
    {"L1, order 1, lam 0", 0, 1, 1},           {"L1, order 2, lam 0", 0, 2, 1},
    {"L1, order 1, lam_max*2", 2, 1, 1},       {"L1, order 2, lam_max*2", 2, 2, 1},
    {"L2, order 1, lam 1600", -1, 1, 2},       {"L2, order 2, lam 1600", -1, 2, 2},
};

static double *y, *trend, *cycle, *dual, *work, numbers[TREND_FILTER_NUMBERS];
static uint32_t *knots, *marks;
static uint64_t counts[TREND_FILTER_COUNTS];
static size_t n;

struct build { entry *fit; int before_dual; };

static uint32_t fit(struct build b, double lam, const struct kind *k) {
    if (b.before_dual)
        return ((entry_before_dual *)(void (*)(void))b.fit)(y, n, lam, 1e-8, 100, k->order, k->penalty, trend, n, cycle, n, knots, n, work, 40 * n, marks, 2 * n, numbers, counts);
    return b.fit(y, n, lam, 1e-8, 100, k->order, k->penalty, trend, n, cycle, n, knots, n, dual, n, work, 40 * n, marks, 2 * n, numbers, counts);
}

/* A build from before dual was added takes it for work: too short, question 9. */
static struct build build_of(entry *f) {
    struct build b = {f, 0};
    b.before_dual = fit(b, 1, &kinds[0]) == TREND_FILTER_WORK_SHORT;
    return b;
}

static double now(void) {
    struct timespec t;
    clock_gettime(CLOCK_MONOTONIC, &t);
    return (double)t.tv_sec * 1e9 + (double)t.tv_nsec;
}

int main(int argc, char **argv) {
    int rounds = argc > 1 ? atoi(argv[1]) : 1001;
    n = argc > 2 ? (size_t)atol(argv[2]) : 168;
    if (rounds < 1 || n < 3 || n > 65536) return fprintf(stderr, "compare [ROUNDS [N]]: at least one round, N from 3 to 65536\n"), 2;
    y = malloc(8 * n), trend = malloc(8 * n), cycle = malloc(8 * n), dual = malloc(8 * n), work = calloc(40 * n, 8);
    knots = malloc(4 * n), marks = malloc(8 * n);
    double *t[2] = {malloc(8 * (size_t)rounds), malloc(8 * (size_t)rounds)}, *ratio = malloc(8 * (size_t)rounds);
    srand(7);
    for (size_t i = 0; i < n; i++) y[i] = rand() % 20000 - 10000 + (i > n / 2 ? 5000 : 0);
    struct build build[2] = {build_of(old_fit), build_of(new_fit)};
    printf("n %zu, %d rounds\n%-28s %9s %9s %9s %9s %9s\n", n, rounds, "fit", "old, us", "new, us", "least", "median", "paired");
    for (size_t c = 0; c < sizeof kinds / sizeof *kinds; c++) {
        const struct kind *k = &kinds[c];
        double lam = 1600;
        if (k->share >= 0) {
            if (fit(build[0], 1, k)) return fprintf(stderr, "refused\n"), 1;
            lam = k->share * numbers[TREND_FILTER_LAM_MAX];
        }
        int times = k->share > 0 && k->share < 1 ? 2 : 20;
        for (int r = 0; r < rounds; r++) {
            for (int h = 0; h < 2; h++) {
                int w = h ^ (r & 1);
                if (fit(build[w], lam, k)) return fprintf(stderr, "refused\n"), 1;
                double from = now();
                for (int i = 0; i < times; i++) fit(build[w], lam, k);
                t[w][r] = (now() - from) / times;
            }
            ratio[r] = t[1][r] / t[0][r];
        }
        for (int w = 0; w < 2; w++) qsort(t[w], (size_t)rounds, 8, rising);
        qsort(ratio, (size_t)rounds, 8, rising);
        int m = rounds / 2;
        printf("%-28s %9.2f %9.2f %+8.2f%% %+8.2f%% %+8.2f%%\n", k->name, t[0][m] / 1e3, t[1][m] / 1e3,
               100 * (t[1][0] / t[0][0] - 1), 100 * (t[1][m] / t[0][m] - 1), 100 * (ratio[m] - 1));
    }
    return 0;
}
