/* Medians of calls that take turns, so that what disturbs the machine disturbs them alike. */
#define _POSIX_C_SOURCE 200809L
#include <stdlib.h>
#include <time.h>

#include "bench.h"

enum { FEWEST_ROUNDS = 31, MOST_ROUNDS = 2001, WARM_UP = 3 };
static const double enough = 1e6; /* microseconds */

static double microseconds(void)
{
    struct timespec time;
    clock_gettime(CLOCK_MONOTONIC, &time);
    return 1e6 * (double)time.tv_sec + 1e-3 * (double)time.tv_nsec;
}

static int ascending(const void *a, const void *b)
{
    double x = *(const double *)a, y = *(const double *)b;
    return (x > y) - (x < y);
}

static double median(double *times, int count)
{
    qsort(times, (size_t)count, sizeof *times, ascending);
    return times[count / 2];
}

void measure(call *const *calls, int count, void *context, double *medians)
{
    double *times = malloc((size_t)count * MOST_ROUNDS * sizeof *times);
    need(times != NULL, "memory for times");
    for (int round = 0; round < WARM_UP; round++)
        for (int i = 0; i < count; i++)
            calls[i](context, round);

    int rounds = 0;
    double first = microseconds();
    while (rounds < FEWEST_ROUNDS || (rounds < MOST_ROUNDS && microseconds() - first < enough)) {
        for (int i = 0; i < count; i++) {
            double start = microseconds();
            calls[i](context, rounds);
            times[i * MOST_ROUNDS + rounds] = microseconds() - start;
        }
        rounds++;
    }
    for (int i = 0; i < count; i++)
        medians[i] = median(times + i * MOST_ROUNDS, rounds);
    free(times);
}
