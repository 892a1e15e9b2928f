/* Times two sides in alternating runs, and prints what both took. */
#ifndef BENCH_TIMING_H
#define BENCH_TIMING_H

#include <stdint.h>

/* RUN_NS: how long a run takes at least. */
enum { RUNS = 21, RUN_NS = 20000000 };

/* Makes one run of a row's calls on a side, `count` times over; answers the nanoseconds that it took. */
typedef double timed_run(const void *row, const void *side, uint64_t count);

/* The nanoseconds of all runs, each of which went `count` times over the calls. */
struct times {
    uint64_t count;
    double ours[RUNS];
    double plain[RUNS];
};

/* Nanoseconds of processor time that this process has taken. */
double spent_ns(void);

/* Warms both sides up, finding how often the calls are made to fill a run; then times the sides in turn. */
void time_both(struct times *times, timed_run *run, const void *row, const void *ours, const void *plain);

/* The median of a side's runs, each of `count` times over the calls. */
double median_of_runs(timed_run *run, const void *row, const void *side, uint64_t count);

void print_heading(const char *what);

/*
 * Prints a row: medians of the nanoseconds a call, their ratio, and the smallest and the largest ratio of two
 * neighbouring runs. `calls` are made each time over, and a loop of `loop_ns` a call is taken off both sides.
 */
void print_row(const char *what, const struct times *times, double calls, double loop_ns);

#endif
