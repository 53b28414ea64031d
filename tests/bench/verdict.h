/* What reading costs the library and the yardstick, fast.c, and whether that is within the bar. */
#ifndef BENCH_VERDICT_H
#define BENCH_VERDICT_H

#include "kinds.h"

enum { ARCHIVE, FAST, SIDES };

/* What a byte costs each of them, in nanoseconds and in instructions; 0 where nothing is known. */
typedef struct {
    double time[SIDES], count[SIDES];
} cost;

/* What it costs in drafts of one kind, by their size. */
typedef struct {
    cost at[SIZES];
} costs;

/* Whether a kind keeps its bar in each size, and a byte's cost does not grow too much with the draft. */
bool keeps_bar(const costs *c, size_t of);

/* The tables for docs/COST.md. */
void tell_costs(const costs all[KINDS]);
void tell_growth(const costs all[KINDS]);

/* A line for each kind that does not keep its bar, how many kinds are no slower than most should be, and last the worst ratio.
 * Answers whether each kind keeps its bar. */
bool tell_verdict(const costs all[KINDS]);

#endif
