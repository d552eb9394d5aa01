/* The header's own check of the floating-point environment: 1 as a program starts and after each change is undone, 0 after
 * fesetround, after flush to zero or denormals as zero (x86), after an exception is made to trap (glibc). A word FAST says that
 * the program was linked with -ffast-math: then the check must say 0 from the start.
 * The last line counts; at a wrong answer the status is 1. Compiled as C and as C++ by tests/run. */
#ifndef _GNU_SOURCE
#define _GNU_SOURCE
#endif
#include <fenv.h>
#include <stdio.h>
#include <string.h>
#include "../../bindings/c/trend_filter.h"
#if defined(__x86_64__)
#include <pmmintrin.h>
#include <xmmintrin.h>
#endif

static int cases, wrong;

static void expect(const char *when, int want) {
    int got = trend_filter_environment_ok();
    cases++;
    if (got != want) {
        wrong++;
        printf("%s: the check says %d\n", when, got);
    }
}

int main(int argc, char **argv) {
    int fast = argc > 1 && !strcmp(argv[1], "FAST");
    expect("as the program starts", !fast);
    if (!fast) {
        const int ways[] = {FE_UPWARD, FE_DOWNWARD, FE_TOWARDZERO};
        for (int i = 0; i < 3; i++) {
            fesetround(ways[i]);
            expect("another rounding", 0);
            fesetround(FE_TONEAREST);
            expect("to nearest again", 1);
        }
#if defined(__x86_64__)
        _MM_SET_FLUSH_ZERO_MODE(_MM_FLUSH_ZERO_ON);
        expect("flush to zero", 0);
        _MM_SET_FLUSH_ZERO_MODE(_MM_FLUSH_ZERO_OFF);
        _MM_SET_DENORMALS_ZERO_MODE(_MM_DENORMALS_ZERO_ON);
        expect("denormals as zero", 0);
        _MM_SET_DENORMALS_ZERO_MODE(_MM_DENORMALS_ZERO_OFF);
        expect("subnormals kept again", 1);
#endif
#if defined(__GLIBC__) && defined(__x86_64__)
        const int traps[] = {FE_DIVBYZERO, FE_INEXACT, FE_INVALID, FE_OVERFLOW, FE_UNDERFLOW};
        for (int i = 0; i < 5; i++) {
            feenableexcept(traps[i]);
            expect("an exception traps", 0);
            fedisableexcept(traps[i]);
            expect("no exception traps again", 1);
        }
#endif
    }
    printf("%d cases, %d differences\n", cases, wrong);
    return wrong != 0;
}
