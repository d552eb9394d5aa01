// Runs every call of the fit that is stored in a folder (NAME.case, NAME.exp) through trend_filter_fit and compares
// each number, place and refusal with the answer of the Rust. Before a call every place lent, and every place of the
// guards around it, holds a NaN of its own payload; after it the bits of every place that must stay as found are compared.
// A TFC1, from before dual was lent, is lent n places of it; its .exp doesn't have what a fit writes there.
// With --before-A7 the answers are from before L2 needed less than L1: where such a folder refuses an L2 call with 9 that
// now has room, its answer is due that the same call gets with 40 n places of work and 2 n of marks.
#include <dirent.h>
#include <inttypes.h>
#include <stdint.h>
#include <stdio.h>
#include <stdlib.h>
#include <string.h>
#include "trend_filter.h"
#include "../bits.h"

enum { GUARD = 4096 };

// A buffer of len bytes between two guards.
typedef struct {
    unsigned char *all, *at;
    size_t len;
    unsigned seed;
} Lent;

// The bits of a NaN, quiet or signalling, of either sign; its payload is the least, the usual or the greatest in one of
// four places, and any in the others.
static uint64_t nan_at(unsigned seed, size_t i) {
    static const uint64_t ends[4] = {1, UINT64_C(0x7ffffffffffff), UINT64_C(0x8000000000000), UINT64_C(0xfffffffffffff)};
    uint64_t z = mixed(((uint64_t)seed << 40) + i * STEP);
    uint64_t any = z & UINT64_C(0xfffffffffffff);
    return (z & UINT64_C(1) << 63) | UINT64_C(0x7ff) << 52 | ((z >> 60 & 3) == 0 ? ends[z & 3] : any ? any : 1);
}

static unsigned char fill_at(unsigned seed, size_t i) { return (unsigned char)(nan_at(seed, i / 8) >> 8 * (i % 8)); }

static Lent lend(size_t len) {
    static unsigned seed;
    Lent l = {malloc(len + 2 * GUARD), NULL, len, ++seed};
    if (!l.all) { perror("malloc"); exit(2); }
    l.at = l.all + GUARD;
    for (size_t i = 0; i < len + 2 * GUARD; i++) l.all[i] = fill_at(l.seed, i);
    return l;
}

// Whether everything but the first free bytes is as it was filled, the guards included.
static int kept(Lent l, size_t free) {
    for (size_t i = 0; i < l.len + 2 * GUARD; i++)
        if ((i < GUARD || GUARD + free <= i) && l.all[i] != fill_at(l.seed, i)) return 0;
    return 1;
}

static uint64_t bits_of(double x) { return x != x ? UINT64_C(0x7ff8000000000000) : bits(x); }

static double double_of(const unsigned char *p) {
    double x;
    memcpy(&x, p, 8);
    return x;
}

static uint64_t hash_more(uint64_t h, uint64_t v, int bytes) {
    for (int i = 0; i < bytes; i++) h = (h ^ (v >> (8 * i) & 255)) * UINT64_C(0x100000001b3);
    return h;
}

static const uint64_t HASH0 = UINT64_C(0xcbf29ce484222325);

static unsigned char *read_file(const char *dir, const char *name, const char *end, size_t *len) {
    char path[4096];
    snprintf(path, sizeof path, "%s/%s.%s", dir, name, end);
    FILE *f = fopen(path, "rb");
    if (!f) { perror(path); exit(2); }
    fseek(f, 0, SEEK_END);
    *len = (size_t)ftell(f);
    rewind(f);
    unsigned char *d = malloc(*len + 1);
    if (fread(d, 1, *len, f) != *len) { perror(path); exit(2); }
    d[*len] = 0;
    fclose(f);
    return d;
}

static uint32_t u32_at(const unsigned char *d, size_t i) { uint32_t v; memcpy(&v, d + i, 4); return v; }

static long wrong, changed;

static void say(const char *name, const char *what) {
    if (wrong++ < 40) printf("%s: %s\n", name, what);
}

// The text that the .exp has, from what the call returned; dual, of which there are n - order places, is NULL for a TFC1.
static char *listing(size_t n, uint32_t order, uint32_t penalty, const double *t, const double *c, const uint32_t *k, const double *dual,
                     const double num[TREND_FILTER_NUMBERS], const uint64_t cnt[TREND_FILTER_COUNTS]) {
    char *out = malloc(400 + (n <= 256 ? n * 110 : 0)), *p = out;
    uint64_t h[4] = {HASH0, HASH0, HASH0, HASH0};
    size_t m = dual ? n - order : 0;
    for (size_t i = 0; i < n; i++) h[0] = hash_more(h[0], bits_of(t[i]), 8), h[1] = hash_more(h[1], bits_of(c[i]), 8);
    for (uint64_t i = 0; i < cnt[TREND_FILTER_KNOTS]; i++) h[2] = hash_more(h[2], k[i], 4);
    for (size_t i = 0; i < m; i++) h[3] = hash_more(h[3], bits_of(dual[i]), 8);
    p += sprintf(p, "fit %zu %u %u %" PRIu64 " %" PRIu64 " %" PRIu64, n, order, penalty, cnt[TREND_FILTER_N_ITER], cnt[TREND_FILTER_IMPROVEMENTS], cnt[TREND_FILTER_CONVERGED]);
    p += sprintf(p, " %" PRIu64 " %" PRIu64 "\nnum", cnt[TREND_FILTER_REASON], cnt[TREND_FILTER_KNOTS]);
    for (int i = 0; i < TREND_FILTER_NUMBERS; i++) p += sprintf(p, " %016" PRIx64, bits_of(num[i]));
    p += sprintf(p, "\nhash");
    for (int i = 0; i < (dual ? 4 : 3); i++) p += sprintf(p, " %016" PRIx64, h[i]);
    p += sprintf(p, "\n");
    if (n <= 256) {
        for (size_t i = 0; i < n; i++) p += sprintf(p, "h %zu %016" PRIx64 " %016" PRIx64 "\n", i, bits_of(t[i]), bits_of(c[i]));
        for (uint64_t i = 0; i < cnt[TREND_FILTER_KNOTS]; i++) p += sprintf(p, "knot %u\n", k[i]);
        for (size_t i = 0; i < m; i++) p += sprintf(p, "dual %zu %016" PRIx64 "\n", i, bits_of(dual[i]));
    }
    return out;
}

// A stored call: what is asked, and how many places are lent.
typedef struct {
    uint32_t order, penalty;
    size_t n, trend, cycle, knots, work, marks, dual;
    double lam, tol;
    uint64_t max_iter;
    const unsigned char *y;
    int with_dual;
} Call;

// What a call answered, and what it was lent.
typedef struct {
    uint32_t refused;
    Lent y, trend, cycle, knots, dual, work, marks, numbers, counts;
} Answer;

static Answer answer(Call c) {
    Answer a = {0, lend(8 * c.n), lend(8 * c.trend), lend(8 * c.cycle), lend(4 * c.knots), lend(8 * c.dual), lend(8 * c.work), lend(4 * c.marks), lend(40), lend(40)};
    memcpy(a.y.at, c.y, 8 * c.n);
    a.refused = trend_filter_fit((double *)a.y.at, c.n, c.lam, c.tol, c.max_iter, c.order, c.penalty, (double *)a.trend.at, c.trend, (double *)a.cycle.at, c.cycle,
                                 (uint32_t *)a.knots.at, c.knots, (double *)a.dual.at, c.dual, (double *)a.work.at, c.work, (uint32_t *)a.marks.at, c.marks,
                                 (double *)a.numbers.at, (uint64_t *)a.counts.at);
    return a;
}

static void give_back(Answer a) {
    free(a.y.all), free(a.trend.all), free(a.cycle.all), free(a.knots.all), free(a.dual.all), free(a.work.all), free(a.marks.all), free(a.numbers.all), free(a.counts.all);
}

// The answer as an .exp has it.
static char *text(Call c, Answer a) {
    const uint64_t *counts = (uint64_t *)a.counts.at;
    if (a.refused || counts[TREND_FILTER_KNOTS] > c.knots || counts[TREND_FILTER_KNOTS] > c.n) {
        char *out = malloc(40);
        if (a.refused) sprintf(out, "refused %u\n", a.refused);
        else sprintf(out, "more knots than places\n");
        return out;
    }
    return listing(c.n, c.order, c.penalty, (double *)a.trend.at, (double *)a.cycle.at, (uint32_t *)a.knots.at, c.with_dual ? (double *)a.dual.at : NULL, (double *)a.numbers.at, counts);
}

// Whether the call is a stored one, and which.
static int read_call(const unsigned char *d, size_t len, Call *c) {
    int with_dual = len >= 64 && !memcmp(d, "TFC2", 4);
    // where lam stands: after the lengths lent
    const size_t at = with_dual ? 40 : 32, from = at + 24;
    if (len < from || (!with_dual && memcmp(d, "TFC1", 4)) || len != from + 8 * (size_t)u32_at(d, 8)) return 0;
    *c = (Call){d[4], d[5], u32_at(d, 8), u32_at(d, 12), u32_at(d, 16), u32_at(d, 20), u32_at(d, 24), u32_at(d, 28), 0, double_of(d + at), double_of(d + at + 8), 0, d + from, with_dual};
    c->dual = with_dual ? u32_at(d, 32) : c->n;
    memcpy(&c->max_iter, d + at + 16, 8);
    return 1;
}

static void run(const char *dir, const char *name, int before_a7) {
    size_t len, elen;
    unsigned char *d = read_file(dir, name, "case", &len);
    char *e = (char *)read_file(dir, name, "exp", &elen);
    Call c;
    if (!read_call(d, len, &c)) { say(name, "no stored case"); free(d), free(e); return; }
    // what the call needs, by document 02's A7
    const size_t work = (c.penalty == TREND_FILTER_L2 ? 16 : 40) * c.n, marks = c.penalty == TREND_FILTER_L2 ? 0 : 2 * c.n;
    if (before_a7 && c.penalty == TREND_FILTER_L2 && !strcmp(e, "refused 9\n") && c.work >= work) {
        Call longer = c;
        longer.work = 40 * c.n, longer.marks = 2 * c.n;
        Answer a = answer(longer);
        free(e), e = text(longer, a), changed++;
        if (a.refused == TREND_FILTER_WORK_SHORT) say(name, "refused with 9 where 40 n and 2 n are lent");
        give_back(a);
    }
    Answer a = answer(c);
    char *g = text(c, a);
    if (strcmp(g, e)) say(name, a.refused ? "another refusal, or a refusal where a fit is due" : "another answer, or a fit where a refusal is due");
    const int fit = !a.refused, free_scratch = fit || a.refused == TREND_FILTER_PIVOT_BAD;
    const uint64_t *counts = (uint64_t *)a.counts.at;
    const size_t count = fit && counts[TREND_FILTER_KNOTS] <= c.knots ? counts[TREND_FILTER_KNOTS] : 0;
    if (memcmp(a.y.at, c.y, 8 * c.n) || !kept(a.y, 8 * c.n)) say(name, "y changed");
    if (!kept(a.trend, fit ? 8 * c.n : 0) || !kept(a.cycle, fit ? 8 * c.n : 0) || !kept(a.knots, 4 * count) || !kept(a.dual, fit ? 8 * (c.n - c.order) : 0))
        say(name, fit ? "a place past the answer changed" : "something was written before a refusal");
    if (!kept(a.numbers, fit ? 40 : 0) || !kept(a.counts, fit ? 40 : 0)) say(name, "numbers or counts changed, or a guard of theirs");
    if (!kept(a.work, free_scratch ? 8 * work : 0) || !kept(a.marks, free_scratch ? 4 * marks : 0)) say(name, "work or marks changed past the free places");
    uint64_t needs[TREND_FILTER_NEEDS];
    uint32_t unneeded = trend_filter_needs(c.n, c.max_iter, c.order, c.penalty, needs);
    if (fit && (unneeded || needs[TREND_FILTER_NEEDS_WORK] != work || needs[TREND_FILTER_NEEDS_MARKS] != marks ||
                needs[TREND_FILTER_NEEDS_STEPS] < counts[TREND_FILTER_N_ITER]))
        say(name, "needs told something else than the fit kept to");
    free(d), free(e), free(g);
    give_back(a);
}

int main(int argc, char **argv) {
    long cases = 0;
    const int before_a7 = argc == 3 && !strcmp(argv[1], "--before-A7");
    if (argc != 2 + before_a7) { fprintf(stderr, "usage: run [--before-A7] FOLDER, which holds NAME.case and NAME.exp\n"); return 2; }
    const char *folder = argv[1 + before_a7];
    struct dirent **names;
    int all = scandir(folder, &names, NULL, alphasort);
    if (all < 0) { perror(folder); return 2; }
    for (int i = 0; i < all; i++) {
        char *end = strstr(names[i]->d_name, ".case");
        if (end && !end[5]) {
            *end = 0;
            run(folder, names[i]->d_name, before_a7);
            cases++;
        }
        free(names[i]);
    }
    free(names);
    if (changed) printf("%ld of them are refused with 9 in the folder and not from A7 on\n", changed);
    printf("%ld cases, %ld differences\n", cases, wrong);
    return wrong != 0 || cases == 0;
}
