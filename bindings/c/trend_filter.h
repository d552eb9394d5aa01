/* The trend of a series, when its search ends and what it needs, where the trend passes a level, and the knot nearest a place: the C
 * entries of the proved static library.
 *
 * `tools/build trend_filter` writes target/staticlib/libtrend_filter.a. With it a program is linked, and with no other library:
 *   cc -Ibindings/c program.c target/staticlib/libtrend_filter.a
 *
 * Each entry answers 0, or refuses with the number of the first question answered no: see trend_filter_refusal.
 *
 * No check is owed before a call: whatever is passed, it ends, and nothing is read or written beyond the lengths given. The arrays must
 * not overlap, and each pointer must be to as many places as its length says, or as its declaration does (numbers, counts, needs, found).
 * A pointer whose length is 0 may be NULL. That is all that C owes.
 *
 * The floating-point environment is taken as C starts a program: rounding to nearest, subnormal numbers kept (no flush to zero, no
 * denormals as zero), no exception that traps. A program that is linked with -ffast-math, or that called fesetround, feenableexcept
 * or _MM_SET_FLUSH_ZERO_MODE before the call, gets other bits or a signal. trend_filter_environment_ok says whether the thread that
 * asks has the environment that the promises assume; asking once, before the first call, is enough if nothing changes it later. */
#ifndef TREND_FILTER_H
#define TREND_FILTER_H

#include <float.h>
#include <stddef.h>
#include <stdint.h>

#ifdef __cplusplus
extern "C" {
#endif

enum trend_filter_penalty { TREND_FILTER_L1 = 1, TREND_FILTER_L2 = 2 };

/* The most places of a series. */
#define TREND_FILTER_MOST_PLACES 65536

/* The places of work and of marks that a fit of n places needs. Both can be the size of an array, but for the marks of L2: there are none,
 * and marks is NULL with length 0. */
#define TREND_FILTER_WORK(n, penalty) ((size_t)(n) * ((penalty) == TREND_FILTER_L2 ? 16u : 40u))
#define TREND_FILTER_MARKS(n, penalty) ((size_t)(n) * ((penalty) == TREND_FILTER_L2 ? 0u : 2u))

/* The questions, by what was found where one is answered no. trend_filter_fit asks 1 to 10, in this order. */
enum trend_filter_refusal {
    TREND_FILTER_FITTED = 0,
    TREND_FILTER_KINDS_UNKNOWN = 1,     /* are order and penalty each 1 or 2? */
    TREND_FILTER_SERIES_SHORT = 2,      /* is n = y_len at least order + 1? */
    TREND_FILTER_SERIES_LONG = 3,       /* is n at most 65,536? */
    TREND_FILTER_SERIES_NOT_FINITE = 4, /* is every y finite? */
    TREND_FILTER_LAM_WRONG = 5,         /* is lam finite and not below 0 (-0 passes)? */
    TREND_FILTER_TOL_WRONG = 6,         /* is tol finite and above 0? */
    TREND_FILTER_MAX_ITER_ZERO = 7,     /* is max_iter at least 1? */
    TREND_FILTER_ANSWER_SHORT = 8,      /* have trend, cycle, knots and dual at least n places each? */
    TREND_FILTER_WORK_SHORT = 9,        /* have work and marks TREND_FILTER_WORK and TREND_FILTER_MARKS? */
    TREND_FILTER_PIVOT_BAD = 10,        /* is every pivot met finite and above 0? */
    TREND_FILTER_LEVEL_NOT_FINITE = 18, /* is the level finite? */
    TREND_FILTER_PLACES_WRONG = 19      /* has the trend at most 65,536 places, list as many, and is the place one of them? */
};

/* The places of numbers, and how many there are. */
enum trend_filter_number {
    TREND_FILTER_LAM_MAX = 0,
    TREND_FILTER_GAP = 1,
    TREND_FILTER_FIRST_GAP = 2,
    TREND_FILTER_BEST_GAP = 3,
    TREND_FILTER_OBJECTIVE = 4
};
#define TREND_FILTER_NUMBERS 5

/* The places of counts, and how many there are. Before the reason was added there were four: a program of that time has to lend five. */
enum trend_filter_count {
    TREND_FILTER_KNOTS = 0,
    TREND_FILTER_N_ITER = 1,
    TREND_FILTER_IMPROVEMENTS = 2,
    TREND_FILTER_CONVERGED = 3, /* 0 or 1 */
    TREND_FILTER_REASON = 4
};
#define TREND_FILTER_COUNTS 5

/* The reason is how the search ended; where more than one holds before an iteration, it is the first of 1, 2, 3. It tells of the search and
 * not of the answer: the polish after it may lower the objective, so that converged is 0 after 1, or the gap, so that converged is 1 after
 * 2, 3 or 4. A search that stalls just as its limit runs out reports 2. Any reason but 2 stays, with the whole answer, for every larger
 * max_iter. */
enum trend_filter_reason {
    TREND_FILTER_CLOSED_PATH = 0, /* there was no search: L2, or L1 with lam 0 or at least lam_max */
    TREND_FILTER_GAP_SMALL = 1,   /* where the search stood, the gap was at most tol times the objective */
    TREND_FILTER_LIMIT_SPENT = 2, /* n_iter is max_iter */
    TREND_FILTER_STALLED = 3,     /* the last ten iterations were no improvements */
    TREND_FILTER_PIVOT_LOST = 4   /* the last iteration met a pivot that isn't finite and above 0, and the search stayed where it stood */
};

/* The places of needs, and how many there are. */
enum trend_filter_need {
    TREND_FILTER_NEEDS_WORK = 0,
    TREND_FILTER_NEEDS_MARKS = 1,
    TREND_FILTER_NEEDS_STEPS = 2
};
#define TREND_FILTER_NEEDS 3

/* The places of found: how many crossings, or how many nearest knots, 0 or 1; and the nearest knot. Two places do for either call. */
enum trend_filter_found { TREND_FILTER_FOUND_COUNT = 0, TREND_FILTER_FOUND_KNOT = 1 };
#define TREND_FILTER_FOUND 2

/* After a fit the first n places of trend and cycle, the first counts[TREND_FILTER_KNOTS] of knots and the first m = n - order of dual hold
 * the answer, with numbers and counts; all later places are as found. After a refusal trend, cycle, knots, dual, numbers and counts are as
 * found; after 1 to 9 work and marks are too. After a fit or number 10 nothing is promised of the places of work and marks that are needed;
 * later ones are as found.
 *
 * dual is the point z at which the dual objective G of the gap was worked out, for whoever rechecks a fit; D takes the order-th differences:
 *   L2                   lam times each place of D trend, not clamped
 *   L1 with lam 0 or -0  +0 in each place; gap and objective are 0
 *   L1 otherwise         z of the certificate that was kept, clamped: a place below -lam is -lam, one above lam is lam, a NaN stays
 * So each of the m places is within -lam and lam for L1, or a NaN. For lam above 0 the gap is objective - G to the bit, where for L1
 * G = -0.5 * sum (D'z)^2 + sum z * Dy, for L2 less sum z^2 / (2 * lam), each sum from the first place on. Before dual was added the call
 * took none: a program of that time has to lend it, after knots.
 *
 * n_iter is at most max_iter and at most 10 J + 10, where J, the improvements, is at most 144,763. A larger tol, all else alike, never
 * gives a greater n_iter. */
uint32_t trend_filter_fit(const double *y, size_t y_len, double lam, double tol, uint64_t max_iter, uint32_t order,
                          uint32_t penalty, double *trend, size_t trend_len, double *cycle, size_t cycle_len,
                          uint32_t *knots, size_t knots_len, double *dual, size_t dual_len, double *work,
                          size_t work_len, uint32_t *marks, size_t marks_len, double numbers[TREND_FILTER_NUMBERS],
                          uint64_t counts[TREND_FILTER_COUNTS]);

/* What a fit needs, before it, from n, max_iter, order and penalty alone: the places of work and of marks, and the most steps, for L1 the
 * lesser of max_iter and 1,447,640, for L2 0. It asks questions 1, 2, 3 and 7, in this order; any n and max_iter of 64 bits may be asked.
 * After a refusal needs is as found. A call of trend_filter_fit for the same n, max_iter, order and penalty never reports an n_iter above
 * the steps told, whatever the series, lam and tol; it isn't refused with 9 if it is lent the places told; and what trend_filter_needs
 * refuses with 1, 2 or 3 it refuses with the same number, what that refuses with 7 it refuses with 4, 5, 6 or 7. */
uint32_t trend_filter_needs(uint64_t n, uint64_t max_iter, uint32_t order, uint32_t penalty,
                            uint64_t needs[TREND_FILTER_NEEDS]);

/* Where a trend of n = trend_len places passes a level: the i, rising, with i + 1 below n where trend[i] is at or below the level and
 * trend[i + 1] above it, or trend[i] above it and trend[i + 1] at or below. A NaN is neither, so there is no crossing beside it. The first
 * found[TREND_FILTER_FOUND_COUNT] places of list are the crossings; later ones are as found. It refuses with 18 where the level isn't
 * finite, then with 19 where n is above 65,536 or list has fewer than n places; list and found are as found. With no NaN in the trend,
 * upward and downward crossings take turns, and with no crossing the whole trend is at or below the level, or all of it above. */
uint32_t trend_filter_crossings(double level, const double *trend, size_t trend_len, uint32_t *list, size_t list_len,
                                uint64_t found[1]);

/* The knot nearest a place, the lower of two that are as near: found becomes 1 and the knot, or 0 and 0 where knots_len is 0. Lend it
 * exactly the knots: the first counts[TREND_FILTER_KNOTS] places. It takes any numbers, in any order. It refuses with 19 where n =
 * trend_len is above 65,536 or the place isn't below n, and found is as found. */
uint32_t trend_filter_nearest_knot(uint64_t place, const double *trend, size_t trend_len, const uint32_t *knots,
                                   size_t knots_len, uint64_t found[TREND_FILTER_FOUND]);

/* The question that a refusal answers no, in words. The Rust crate has the same. */
static inline const char *trend_filter_refusal_text(uint32_t refused) {
    switch (refused) {
    case TREND_FILTER_FITTED: return "nothing was refused";
    case TREND_FILTER_KINDS_UNKNOWN: return "are order and penalty each 1 or 2?";
    case TREND_FILTER_SERIES_SHORT: return "is the series at least order + 1 long?";
    case TREND_FILTER_SERIES_LONG: return "is the series at most 65,536 long?";
    case TREND_FILTER_SERIES_NOT_FINITE: return "is every place of the series finite?";
    case TREND_FILTER_LAM_WRONG: return "is lam finite and not below 0?";
    case TREND_FILTER_TOL_WRONG: return "is tol finite and above 0?";
    case TREND_FILTER_MAX_ITER_ZERO: return "is max_iter at least 1?";
    case TREND_FILTER_ANSWER_SHORT: return "have trend, cycle, knots and dual a place for each of the series?";
    case TREND_FILTER_WORK_SHORT: return "have work and marks the places that they need?";
    case TREND_FILTER_PIVOT_BAD: return "is every pivot met finite and above 0?";
    case TREND_FILTER_LEVEL_NOT_FINITE: return "is the level finite?";
    case TREND_FILTER_PLACES_WRONG: return "is the trend at most 65,536 long, has the list as many places, is the place asked about one of them?";
    default: return "the library has no question of this number";
    }
}

/* A reason in words. */
static inline const char *trend_filter_reason_text(uint64_t reason) {
    switch (reason) {
    case TREND_FILTER_CLOSED_PATH: return "closed path";
    case TREND_FILTER_GAP_SMALL: return "gap small enough";
    case TREND_FILTER_LIMIT_SPENT: return "limit spent";
    case TREND_FILTER_STALLED: return "stalled";
    case TREND_FILTER_PIVOT_LOST: return "pivot lost";
    default: return "no reason has this number";
    }
}

/* Whether a floating-point exception traps; with another compiler than gcc or clang this isn't known, and the answer is 0. */
static inline int trend_filter_traps(void) {
#if (defined(__GNUC__) || defined(__clang__)) && defined(__x86_64__)
    return (__builtin_ia32_stmxcsr() & 0x1f80u) != 0x1f80u; /* a mask bit for each exception; 0 traps */
#else
    return 0;
#endif
}

/* 1 if doubles round to nearest, ties to even, subnormals are kept, and nothing traps; else 0. It may leave exception flags raised. */
static inline int trend_filter_environment_ok(void) {
    /* volatile, so that the sums are done when this runs and not by the compiler */
    volatile double one = 1, unit = DBL_EPSILON, least = DBL_MIN, half, tie, up, down, small, sum, back;
    if (trend_filter_traps()) return 0;
    half = unit / 2;
    tie = one + half; /* half way between 1 and 1 + unit: 1 is even */
    up = (one + unit) + half; /* half way between 1 + unit and 1 + 2 unit: the latter is even */
    down = -one - half;
    small = least * unit; /* 2^-1074, the least subnormal */
    sum = least / 2 + small;
    back = sum - small;
    back = back + back;
    return tie == one && up == one + 2 * unit && down == -one && small > 0 && sum > small && back == least;
}

#ifdef __cplusplus
}
#endif

#endif
