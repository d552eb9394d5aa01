/* For tests/python/run.py: reads and sets this thread's floating-point environment; AT_LOAD sets it as the object is loaded. */
#include <xmmintrin.h>

unsigned get(void) { return _mm_getcsr(); }

void set(unsigned x) { _mm_setcsr(x); }

#ifdef AT_LOAD
__attribute__((constructor)) static void at_load(void) { _mm_setcsr(_mm_getcsr() | 0x8040u); }
#endif
