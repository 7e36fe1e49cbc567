/* What the benchmarks share: a clock in nanoseconds, the median of times, and ratios with their bounds. */
#ifndef TIMING_H
#define TIMING_H

#include <stdio.h>
#include <stdlib.h>
#include <time.h>

static inline double now(void)
{
    struct timespec t;
    clock_gettime(CLOCK_MONOTONIC, &t);
    return (double)t.tv_sec * 1e9 + (double)t.tv_nsec;
}

static inline int rising(const void *a, const void *b)
{
    double x = *(const double *)a, y = *(const double *)b;
    return (x > y) - (x < y);
}

static inline double median(double *times, size_t many)
{
    qsort(times, many, sizeof *times, rising);
    return times[many / 2];
}

/* Prints a ratio, what it may be at most, and a mark if it is more, or no ratio of times; whether it is. */
static inline int print_ratio(double ratio, double most)
{
    int within = ratio > 0 && ratio <= most;
    printf("ratio %.3f, at most %.2f%s", ratio, most, within ? "" : " ABOVE");
    return !within;
}

#endif
