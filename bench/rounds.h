/* For the rounds of a measurement: the order of doubles, as qsort asks for it. */
static int rising(const void *a, const void *b) {
    double x = *(const double *)a, z = *(const double *)b;
    return (x > z) - (x < z);
}
