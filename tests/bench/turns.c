#include "turns.h"

#include <assert.h>
#include <stdio.h>
#include <time.h>

/* Nanoseconds that are timed at once, at least. */
enum { SHORTEST = 1000000 };

/* Nanoseconds for so many calls, of the processor's time: what else runs on the machine is not counted. */
static double timed(turn *make, size_t which, size_t calls)
{
    struct timespec from, to;

    clock_gettime(CLOCK_THREAD_CPUTIME_ID, &from);
    for (size_t i = 0; i < calls; i++)
        make(which);
    clock_gettime(CLOCK_THREAD_CPUTIME_ID, &to);
    return (double)(to.tv_sec - from.tv_sec) * 1e9 + (double)(to.tv_nsec - from.tv_nsec);
}

void best_of_turns(turn *make, size_t len, size_t rounds, double best[])
{
    size_t calls[TURNS];

    assert(len <= TURNS);
    for (size_t which = 0; which < len; which++) {
        calls[which] = 1;
        while (timed(make, which, calls[which]) < SHORTEST)
            calls[which] *= 2;
    }
    for (size_t round = 0; round < rounds; round++)
        for (size_t which = 0; which < len; which++) {
            const double cost = timed(make, which, calls[which]) / (double)calls[which];

            if (round == 0 || cost < best[which])
                best[which] = cost;
        }
}

void tell_ratio(double of, double to)
{
    if (of > 0 && to > 0)
        printf(" %.2f |", of / to);
    else
        printf(" - |");
}
