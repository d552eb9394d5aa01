/* Document 01's listing by the C entry, what it needs and the dual point; then the hours at which a trend goes past eight seconds, and
 * the knot nearest one. Here, after `tools/build trend_filter`:
 * cc example.c ../../target/staticlib/libtrend_filter.a -o example */
#include <inttypes.h>
#include <stdio.h>
#include "trend_filter.h"

#define N 2
#define HOURS 5

static int refusal(uint32_t refused) {
    printf("refused %" PRIu32 ": %s\n", refused, trend_filter_refusal_text(refused));
    return 1;
}

/* 8,000 ms themselves are at the mark and not past it. */
static int past_eight_seconds(void) {
    const double trend[HOURS] = {7900, 8000, 8600, 8100, 7400};
    const uint32_t knots[2] = {0, 2};
    uint32_t list[HOURS];
    uint64_t found[TREND_FILTER_FOUND];
    uint32_t refused = trend_filter_crossings(8000, trend, HOURS, list, HOURS, found);
    if (refused) return refusal(refused);
    for (uint64_t j = 0; j < found[TREND_FILTER_FOUND_COUNT]; j++)
        printf("%s eight seconds between hour %" PRIu32 " and the next\n", trend[list[j]] > 8000 ? "back to" : "past", list[j]);
    refused = trend_filter_nearest_knot(1, trend, HOURS, knots, 2, found);
    if (refused) return refusal(refused);
    if (found[TREND_FILTER_FOUND_COUNT]) printf("the knot nearest hour 1 is %" PRIu64 "\n", found[TREND_FILTER_FOUND_KNOT]);
    return 0;
}

int main(void) {
    const uint32_t order = 1, penalty = TREND_FILTER_L1;
    const uint64_t max_iter = 100;
    double y[N] = {8000, 0}, trend[N], cycle[N], dual[N], work[TREND_FILTER_WORK(N, TREND_FILTER_L1)], numbers[TREND_FILTER_NUMBERS];
    uint32_t knots[N], marks[TREND_FILTER_MARKS(N, TREND_FILTER_L1)];
    uint64_t counts[TREND_FILTER_COUNTS], needs[TREND_FILTER_NEEDS];
    if (!trend_filter_environment_ok()) {
        printf("the floating-point environment is not the one that the promises assume\n");
        return 1;
    }
    uint32_t refused = trend_filter_needs(N, max_iter, order, penalty, needs);
    if (refused) return refusal(refused);
    printf("needs %" PRIu64 " places of work and %" PRIu64 " of marks, ", needs[TREND_FILTER_NEEDS_WORK], needs[TREND_FILTER_NEEDS_MARKS]);
    printf("at most %" PRIu64 " steps\n", needs[TREND_FILTER_NEEDS_STEPS]);
    refused = trend_filter_fit(y, N, 4000, 1e-8, max_iter, order, penalty, trend, N, cycle, N, knots, N, dual, N,
                               work, sizeof work / sizeof *work, marks, sizeof marks / sizeof *marks, numbers, counts);
    if (refused) return refusal(refused);
    printf("%" PRIu64 " steps (%s), ", counts[TREND_FILTER_N_ITER], trend_filter_reason_text(counts[TREND_FILTER_REASON]));
    printf("%" PRIu64 " knots, ", counts[TREND_FILTER_KNOTS]);
    printf("gap %g, objective %g\n", numbers[TREND_FILTER_GAP], numbers[TREND_FILTER_OBJECTIVE]);
    for (int i = 0; i < N; i++) printf("h %d %g %g\n", i, trend[i], cycle[i]);
    for (uint32_t i = 0; i < N - order; i++) printf("dual %" PRIu32 " %g\n", i, dual[i]);
    return past_eight_seconds();
}
