#define _POSIX_C_SOURCE 199309L

#include "timing.h"

#include <stdio.h>
#include <stdlib.h>
#include <string.h>
#include <time.h>

double spent_ns(void)
{
    struct timespec now;

    clock_gettime(CLOCK_PROCESS_CPUTIME_ID, &now);
    return (double)now.tv_sec * 1e9 + (double)now.tv_nsec;
}

static int by_size(const void *a, const void *b)
{
    double x = *(const double *)a, y = *(const double *)b;

    return (x > y) - (x < y);
}

static double median(const double *numbers)
{
    double sorted[RUNS];

    memcpy(sorted, numbers, sizeof sorted);
    qsort(sorted, RUNS, sizeof sorted[0], by_size);
    return sorted[RUNS / 2];
}

void time_both(struct times *times, timed_run *run, const void *row, const void *ours, const void *plain)
{
    uint64_t count = 1;

    while (run(row, ours, count) < RUN_NS || run(row, plain, count) < RUN_NS)
        count *= 2;
    times->count = count;
    for (int i = 0; i < RUNS; i++) {
        if (i % 2 == 0)
            times->ours[i] = run(row, ours, count);
        times->plain[i] = run(row, plain, count);
        if (i % 2 == 1)
            times->ours[i] = run(row, ours, count);
    }
}

double median_of_runs(timed_run *run, const void *row, const void *side, uint64_t count)
{
    double ns[RUNS];

    for (int i = 0; i < RUNS; i++)
        ns[i] = run(row, side, count);
    return median(ns);
}

void print_heading(const char *what)
{
    printf("%-70s%9s%9s%8s   %s\n", what, "ours ns", "C ns", "ratio", "spread");
}

void print_row(const char *what, const struct times *times, double calls, double loop_ns)
{
    double ours[RUNS], plain[RUNS], ratios[RUNS];

    for (int i = 0; i < RUNS; i++) {
        ours[i] = times->ours[i] / ((double)times->count * calls) - loop_ns;
        plain[i] = times->plain[i] / ((double)times->count * calls) - loop_ns;
        ratios[i] = ours[i] / plain[i];
    }
    qsort(ratios, RUNS, sizeof ratios[0], by_size);
    printf("%-70s%9.2f%9.2f%8.2f   %.2f to %.2f\n", what, median(ours), median(plain), median(ours) / median(plain),
           ratios[0], ratios[RUNS - 1]);
    fflush(stdout);
}
