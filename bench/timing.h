/* What the benchmarks share: the clock, the median, and a figure as the page shows it. */
#include <stdio.h>
#include <stdlib.h>
#include <time.h>

/* Processor time of this program in nanoseconds: what other programs take meanwhile does not count. Reading it takes part of a microsecond. */
static inline double now(void)
{
    struct timespec t;
    clock_gettime(CLOCK_PROCESS_CPUTIME_ID, &t);
    return 1e9 * (double)t.tv_sec + (double)t.tv_nsec;
}

static inline int ascending(const void *a, const void *b)
{
    double x = *(const double *)a, y = *(const double *)b;
    return (x > y) - (x < y);
}

/* Sorts v. */
static inline double median(double *v, int n)
{
    qsort(v, (size_t)n, sizeof *v, ascending);
    return v[n / 2];
}

/* A cell of a table, bold where the figure as printed is above its limit; limit 0: there is none. */
static inline void print_cell(double figure, double limit)
{
    const char *bold = limit > 0 && figure >= limit + 0.0005 ? "**" : "";
    printf(" %s%.3f%s |", bold, figure, bold);
}
