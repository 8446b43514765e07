/* bench FILE REPEAT: nanoseconds per frame of the library on the calls of FILE, for 1, 2 and 4 paths and shaping orders 24 and 16; each
 * call starts from the state that it gives, else from a fresh one, and the copy of that state is timed too. */
#define _POSIX_C_SOURCE 199309L
#include "calls.h"
#include <stdio.h>
#include <stdlib.h>
#include <time.h>

static double now_ns(void)
{
    struct timespec t;
    clock_gettime(CLOCK_MONOTONIC, &t);
    return t.tv_sec * 1e9 + t.tv_nsec;
}

static double once(struct call *calls, size_t n, uint32_t *sum)
{
    double start = now_ns();
    for (size_t i = 0; i < n; i++) {
        int32_t settings[NSQ_SETTINGS];
        int8_t pulses[320] = {0};
        struct state s = calls[i].given;
        *sum = *sum * 31 + run_call(&calls[i], &s, settings, pulses);
        *sum += (uint32_t)pulses[7] + (uint32_t)pulses[99] + (uint32_t)settings[NSQ_SEED];
    }
    return (now_ns() - start) / (double)n;
}

static int ascending(const void *a, const void *b)
{
    double x = *(const double *)a, y = *(const double *)b;
    return (x > y) - (x < y);
}

int main(int argc, char **argv)
{
    static const int paths[] = {1, 2, 4}, orders[] = {24, 16};
    size_t n, rep = argc == 3 ? (size_t)atoi(argv[2]) : 0;
    if (!rep)
        return fprintf(stderr, "bench FILE REPEAT\n"), 2;
    struct call *calls = read_calls(argv[1], &n);
    double *times = malloc(rep * sizeof *times);
    for (size_t i = 0; i < n; i++)
        if (calls[i].kind != GIVEN)
            fresh_state(&calls[i].given);
    for (int o = 0; o < 2; o++)
        for (int p = 0; p < 3; p++) {
            uint32_t sum = 0;
            for (size_t i = 0; i < n; i++) {
                calls[i].settings[NSQ_PATHS] = paths[p];
                calls[i].settings[NSQ_SHAPING_ORDER] = orders[o];
            }
            for (size_t r = 0; r < rep; r++)
                times[r] = once(calls, n, &sum);
            qsort(times, rep, sizeof *times, ascending);
            printf("lib   paths %d order %d: best %.0f median %.0f worst %.0f ns/frame (sum %u)\n", paths[p], orders[o], times[0], times[rep / 2], times[rep - 1], (unsigned)sum);
        }
    return 0;
}
