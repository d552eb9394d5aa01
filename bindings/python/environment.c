/* The header's check of the floating-point environment, as a function of the shared object. */
#include "trend_filter.h"

int trend_filter_environment(void) { return trend_filter_environment_ok(); }
