/* The header's names against the library: each refusal and each reason is brought about and compared with its name, each place of numbers,
 * counts, needs and found with what it means; TREND_FILTER_WORK and TREND_FILTER_MARKS with trend_filter_needs; the texts; and NULL with
 * length 0. The last line counts; at a difference the status is 1. Compiled as C and as C++ by tests/run. */
#include <math.h>
#include <stdio.h>
#include <string.h>
#include "../../bindings/c/trend_filter.h"

enum { MOST = TREND_FILTER_MOST_PLACES, PLACES = 16 };

static long cases, wrong;

static void expect(const char *what, int good) {
    cases++;
    if (!good && wrong++ < 40) printf("%s: not as its name says\n", what);
}

static double y[MOST + 1], trend[PLACES], cycle[PLACES], dual[PLACES], numbers[TREND_FILTER_NUMBERS];
/* the sizes of arrays, of arguments that are sums and choices */
static double work[TREND_FILTER_WORK(PLACES - 1 + 1, 0 ? TREND_FILTER_L2 : TREND_FILTER_L1)];
static uint32_t knots[PLACES], marks[TREND_FILTER_MARKS(PLACES - 1 + 1, 0 ? TREND_FILTER_L2 : TREND_FILTER_L1)];
static double work_of_l2[TREND_FILTER_WORK(1 + 1, TREND_FILTER_L2)];
static uint64_t counts[TREND_FILTER_COUNTS], needs[TREND_FILTER_NEEDS], found[TREND_FILTER_FOUND];

/* What is asked, and how many places are lent of the answer, of work and of marks. */
typedef struct {
    uint32_t order, penalty;
    size_t n;
    double lam, tol;
    uint64_t max_iter;
    size_t answer, work, marks;
} Call;

static const Call usual = {1, TREND_FILTER_L1, 3, 1000, 1e-8, 100, 3, TREND_FILTER_WORK(3, TREND_FILTER_L1),
                           TREND_FILTER_MARKS(3, TREND_FILTER_L1)};

static uint32_t fit(Call c) {
    return trend_filter_fit(y, c.n, c.lam, c.tol, c.max_iter, c.order, c.penalty, trend, c.answer, cycle, c.answer, knots, c.answer,
                            dual, c.answer, work, c.work, marks, c.marks, numbers, counts);
}

static void series(double a, double b, double c) { y[0] = a, y[1] = b, y[2] = c; }

/* Each question answered no, the last first; what is wrong stays so, and each name is met before those of later questions. */
static void refusals(void) {
    Call c = usual;
    series(0, 0, 0);
    c.penalty = TREND_FILTER_L2, c.lam = 1e308, c.order = 2;
    expect("PIVOT_BAD", fit(c) == TREND_FILTER_PIVOT_BAD);
    c.work = TREND_FILTER_WORK(3, TREND_FILTER_L2) - 1, c.marks = 0;
    expect("WORK_SHORT", fit(c) == TREND_FILTER_WORK_SHORT);
    c.answer = 2;
    expect("ANSWER_SHORT", fit(c) == TREND_FILTER_ANSWER_SHORT);
    c.max_iter = 0;
    expect("MAX_ITER_ZERO", fit(c) == TREND_FILTER_MAX_ITER_ZERO);
    c.tol = 0;
    expect("TOL_WRONG", fit(c) == TREND_FILTER_TOL_WRONG);
    c.lam = -1;
    expect("LAM_WRONG", fit(c) == TREND_FILTER_LAM_WRONG);
    y[1] = HUGE_VAL;
    expect("SERIES_NOT_FINITE", fit(c) == TREND_FILTER_SERIES_NOT_FINITE);
    c.n = MOST + 1;
    expect("SERIES_LONG", fit(c) == TREND_FILTER_SERIES_LONG);
    c.n = MOST;
    expect("MOST_PLACES", fit(c) == TREND_FILTER_SERIES_NOT_FINITE);
    c.n = 2;
    expect("SERIES_SHORT", fit(c) == TREND_FILTER_SERIES_SHORT);
    c.penalty = TREND_FILTER_L2 + 1;
    expect("KINDS_UNKNOWN", fit(c) == TREND_FILTER_KINDS_UNKNOWN);
    y[1] = 0;
    expect("LEVEL_NOT_FINITE", trend_filter_crossings(HUGE_VAL, y, 3, knots, 2, found) == TREND_FILTER_LEVEL_NOT_FINITE);
    expect("PLACES_WRONG", trend_filter_crossings(0, y, 3, knots, 2, found) == TREND_FILTER_PLACES_WRONG);
    expect("PLACES_WRONG", trend_filter_nearest_knot(3, y, 3, knots, 1, found) == TREND_FILTER_PLACES_WRONG);
}

static void reason(const char *name, Call c, uint64_t is) {
    expect(name, fit(c) == TREND_FILTER_FITTED && counts[TREND_FILTER_REASON] == is);
}

static void reasons(void) {
    Call c = usual;
    series(8000, 0, 0), c.n = 2, c.lam = 4000, c.tol = 1e-3;
    reason("CLOSED_PATH", c, TREND_FILTER_CLOSED_PATH);
    c.lam = 3000;
    reason("GAP_SMALL", c, TREND_FILTER_GAP_SMALL);
    c.max_iter = 2;
    reason("LIMIT_SPENT", c, TREND_FILTER_LIMIT_SPENT);
    expect("CONVERGED", counts[TREND_FILTER_CONVERGED] == 1 && counts[TREND_FILTER_N_ITER] == 2);
    series(1e308, -1e308, 0), c.lam = 1e308, c.tol = 1e-8, c.max_iter = 100;
    reason("STALLED", c, TREND_FILTER_STALLED);
    expect("not CONVERGED", counts[TREND_FILTER_CONVERGED] == 0 && counts[TREND_FILTER_N_ITER] == 10);
    series(0, 1, 0), c.n = 3, c.order = 2, c.lam = 2e-308;
    reason("PIVOT_LOST", c, TREND_FILTER_PIVOT_LOST);
}

static double size(double x) { return x < 0 ? -x : x; }

/* Each place of numbers and counts by what it means, of a search that has a polish. */
static void places(void) {
    Call c = usual;
    series(8000, 0, 100);
    expect("FITTED", fit(c) == TREND_FILTER_FITTED);
    const double d1 = trend[1] - trend[0], d2 = trend[2] - trend[1];
    const double objective = 0.5 * (cycle[0] * cycle[0] + cycle[1] * cycle[1] + cycle[2] * cycle[2]) + c.lam * (size(d1) + size(d2));
    const double s1 = -dual[0], s2 = dual[0] - dual[1], s3 = dual[1];
    const double lower = dual[0] * (y[1] - y[0]) + dual[1] * (y[2] - y[1]) - 0.5 * (s1 * s1 + s2 * s2 + s3 * s3);
    expect("OBJECTIVE", size(numbers[TREND_FILTER_OBJECTIVE] - objective) < 1);
    expect("GAP", size(numbers[TREND_FILTER_GAP] - (objective - lower)) < 1e-6);
    expect("FIRST_GAP", numbers[TREND_FILTER_FIRST_GAP] == 8100000);
    expect("BEST_GAP", numbers[TREND_FILTER_BEST_GAP] > numbers[TREND_FILTER_GAP] && numbers[TREND_FILTER_BEST_GAP] < 0.1);
    expect("KNOTS", counts[TREND_FILTER_KNOTS] == 1 && knots[0] == 0);
    expect("N_ITER", counts[TREND_FILTER_N_ITER] == 16);
    expect("IMPROVEMENTS", counts[TREND_FILTER_IMPROVEMENTS] == 13);
    /* the least lam without a search */
    c.lam = numbers[TREND_FILTER_LAM_MAX];
    reason("LAM_MAX", c, TREND_FILTER_CLOSED_PATH);
    c.lam *= 1 - 1e-9;
    expect("below LAM_MAX", fit(c) == TREND_FILTER_FITTED && counts[TREND_FILTER_REASON] != TREND_FILTER_CLOSED_PATH);
}

static void found_places(void) {
    const uint32_t some[2] = {0, 2};
    uint32_t list[3];
    series(1, 9, 1);
    expect("crossings", !trend_filter_crossings(5, y, 3, list, 3, found) && list[0] == 0 && list[1] == 1);
    expect("FOUND_COUNT", found[TREND_FILTER_FOUND_COUNT] == 2);
    expect("nearest knot", !trend_filter_nearest_knot(2, y, 3, some, 2, found) && found[TREND_FILTER_FOUND_COUNT] == 1);
    expect("FOUND_KNOT", found[TREND_FILTER_FOUND_KNOT] == 2);
}

/* What a fit of n places needs is what the macros say, of arguments that are sums too. */
static void needed(size_t n) {
    for (uint32_t order = 1; order < 3; order++)
        for (uint32_t penalty = TREND_FILTER_L1; penalty <= TREND_FILTER_L2; penalty++) {
            if (n <= order) continue;
            expect("NEEDS", !trend_filter_needs(n, 77, order, penalty, needs));
            expect("WORK", needs[TREND_FILTER_NEEDS_WORK] == TREND_FILTER_WORK(n, penalty));
            expect("MARKS", needs[TREND_FILTER_NEEDS_MARKS] == TREND_FILTER_MARKS(n, penalty));
            expect("STEPS", needs[TREND_FILTER_NEEDS_STEPS] == (penalty == TREND_FILTER_L1 ? 77u : 0u));
            expect("WORK of a sum", 2 * TREND_FILTER_WORK(n - 1 + 1, penalty | 0) == 2 * needs[TREND_FILTER_NEEDS_WORK]);
            expect("MARKS of a sum", 2 * TREND_FILTER_MARKS(n - 1 + 1, penalty | 0) == 2 * needs[TREND_FILTER_NEEDS_MARKS]);
        }
}

static void sizes(void) {
    for (size_t n = 2; n < 2000; n++) needed(n);
    for (size_t n = 2; n <= MOST; n *= 2) needed(n);
    needed(MOST - 1);
    expect("work as an array", sizeof work == sizeof(double) * 40 * PLACES && sizeof marks == sizeof(uint32_t) * 2 * PLACES);
    expect("work of L2 as an array", sizeof work_of_l2 == sizeof(double) * 32);
    expect("NUMBERS", TREND_FILTER_NUMBERS == TREND_FILTER_OBJECTIVE + 1 && sizeof numbers == 40);
    expect("COUNTS", TREND_FILTER_COUNTS == TREND_FILTER_REASON + 1 && sizeof counts == 40);
    expect("NEEDS and FOUND", TREND_FILTER_NEEDS == TREND_FILTER_NEEDS_STEPS + 1 && TREND_FILTER_FOUND == TREND_FILTER_FOUND_KNOT + 1);
    expect("within a product", 100 % TREND_FILTER_WORK(1, TREND_FILTER_L1) == 20 && 9 / TREND_FILTER_MARKS(2, TREND_FILTER_L1) == 2);
}

/* The trend of (6, 0) by a penalty: of trend, cycle, knots, dual, work and marks the one that is named is NULL with length 0. */
static uint32_t without(char lacks, uint32_t penalty) {
    const size_t n = 2, t = lacks == 't' ? 0 : n, c = lacks == 'c' ? 0 : n, k = lacks == 'k' ? 0 : n, d = lacks == 'd' ? 0 : n;
    const size_t w = lacks == 'w' ? 0 : TREND_FILTER_WORK(n, penalty), m = lacks == 'm' ? 0 : TREND_FILTER_MARKS(n, penalty);
    series(6, 0, 0);
    return trend_filter_fit(y, n, 1, 1e-8, 100, 1, penalty, t ? trend : NULL, t, c ? cycle : NULL, c, k ? knots : NULL, k, d ? dual : NULL, d,
                            !w ? NULL : penalty == TREND_FILTER_L2 ? work_of_l2 : work, w, m ? marks : NULL, m, numbers, counts);
}

static void nothing(void) {
    expect("marks of L2", without('m', TREND_FILTER_L2) == TREND_FILTER_FITTED && trend[0] == 4 && trend[1] == 2);
    expect("marks of L1", without('m', TREND_FILTER_L1) == TREND_FILTER_WORK_SHORT);
    for (uint32_t penalty = TREND_FILTER_L1; penalty <= TREND_FILTER_L2; penalty++) {
        expect("nothing is NULL", without(' ', penalty) == TREND_FILTER_FITTED);
        expect("work", without('w', penalty) == TREND_FILTER_WORK_SHORT);
        for (const char *lacks = "tckd"; *lacks; lacks++)
            expect("trend, cycle, knots or dual", without(*lacks, penalty) == TREND_FILTER_ANSWER_SHORT);
    }
    const uint32_t none = trend_filter_fit(NULL, 0, 1, 1e-8, 100, 1, TREND_FILTER_L1, NULL, 0, NULL, 0, NULL, 0, NULL, 0, NULL, 0, NULL, 0, numbers, counts);
    expect("y", none == TREND_FILTER_SERIES_SHORT);
    found[TREND_FILTER_FOUND_COUNT] = 7;
    expect("a trend", !trend_filter_crossings(1, NULL, 0, NULL, 0, found) && found[TREND_FILTER_FOUND_COUNT] == 0);
    found[TREND_FILTER_FOUND_COUNT] = found[TREND_FILTER_FOUND_KNOT] = 7;
    expect("knots", !trend_filter_nearest_knot(1, y, 2, NULL, 0, found) && !found[TREND_FILTER_FOUND_COUNT] && !found[TREND_FILTER_FOUND_KNOT]);
    expect("a trend's place", trend_filter_nearest_knot(0, NULL, 0, NULL, 0, found) == TREND_FILTER_PLACES_WRONG);
}

/* Each number that has a name has words of its own, and any other the words of none. */
static void texts(void) {
    const uint32_t named[] = {0, 1, 2, 3, 4, 5, 6, 7, 8, 9, 10, 18, 19}, none[] = {11, 12, 13, 14, 15, 16, 17, 20, 21, 22, 255, 256, UINT32_MAX};
    const char *other = trend_filter_refusal_text(11), *no_reason = trend_filter_reason_text(5);
    for (int i = 0; i < 13; i++) {
        const char *text = trend_filter_refusal_text(named[i]);
        expect("a refusal's text", text && *text && strcmp(text, other));
        for (int j = 0; j < i; j++) expect("two refusals' texts", strcmp(text, trend_filter_refusal_text(named[j])) != 0);
        expect("the text of no refusal", trend_filter_refusal_text(none[i]) && *other && !strcmp(trend_filter_refusal_text(none[i]), other));
    }
    for (uint64_t i = 0; i < 5; i++) {
        const char *text = trend_filter_reason_text(i);
        expect("a reason's text", text && *text && strcmp(text, no_reason));
        for (uint64_t j = 0; j < i; j++) expect("two reasons' texts", strcmp(text, trend_filter_reason_text(j)) != 0);
        expect("the text of no reason", *no_reason && !strcmp(trend_filter_reason_text(UINT64_MAX - i), no_reason));
        expect("the text of no reason", !strcmp(trend_filter_reason_text((UINT64_C(1) << 32) + i), no_reason));
    }
    expect("text of TOL_WRONG", !strcmp(trend_filter_refusal_text(TREND_FILTER_TOL_WRONG), "is tol finite and above 0?"));
    expect("text of STALLED", !strcmp(trend_filter_reason_text(TREND_FILTER_STALLED), "stalled"));
}

int main(void) {
    refusals();
    reasons();
    places();
    found_places();
    sizes();
    nothing();
    texts();
    printf("%ld cases, %ld differences\n", cases, wrong);
    return wrong != 0;
}
