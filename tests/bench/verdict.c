#include "verdict.h"

#include <stdio.h>

#include "turns.h"

/* What most kinds should take at most, and by how much the cost of a byte may grow from 1 KiB to 16 KiB. */
#define MOST 1.1
#define GROWTH 1.05

/* ---- ratios */

/* 0 where something is not known. */
static double ratio(double of, double to)
{
    return to > 0 ? of / to : 0;
}

static double by_time(const cost *c)
{
    return ratio(c->time[ARCHIVE], c->time[FAST]);
}

static double by_count(const cost *c)
{
    return ratio(c->count[ARCHIVE], c->count[FAST]);
}

static double growth(const costs *c)
{
    return ratio(c->at[KIB_16].time[ARCHIVE], c->at[KIB_1].time[ARCHIVE]);
}

/* Whether the times of a kind are within a bar in each size. */
static bool within(const costs *c, double bar)
{
    for (size_t at = 0; at < SIZES; at++)
        if (by_time(&c->at[at]) > bar)
            return false;
    return true;
}

bool keeps_bar(const costs *c, size_t of)
{
    return within(c, kinds[of].bar) && growth(c) <= GROWTH;
}

/* ---- tables */

static void tell_both(const double both[SIDES])
{
    for (size_t side = 0; side < SIDES; side++)
        if (both[side] > 0)
            printf(" %.2f |", both[side]);
        else
            printf(" - |");
    tell_ratio(both[ARCHIVE], both[FAST]);
}

void tell_costs(const costs all[KINDS])
{
    printf("| draft | bytes | archive, ns a byte | fast.c, ns a byte | archive/fast.c | archive, instructions a byte |"
           " fast.c, instructions a byte | archive/fast.c |\n|---|---|---|---|---|---|---|---|\n");
    for (size_t of = 0; of < KINDS; of++)
        for (size_t at = 0; at < SIZES; at++)
            if (has_size(of, at)) {
                printf("| %s | %s |", kinds[of].name, sizes[at].name);
                tell_both(all[of].at[at].time);
                tell_both(all[of].at[at].count);
                putchar('\n');
            }
}

/* The time of a byte at 16 KiB, as a multiple of that at 1 KiB. */
void tell_growth(const costs all[KINDS])
{
    printf("\n| growth of a byte's cost, %s to %s bytes | archive | fast.c |\n|---|---|---|\n", sizes[KIB_1].name,
           sizes[KIB_16].name);
    for (size_t of = 0; of < KINDS; of++)
        if (has_size(of, KIB_16)) {
            printf("| %s |", kinds[of].name);
            for (size_t side = 0; side < SIDES; side++)
                tell_ratio(all[of].at[KIB_16].time[side], all[of].at[KIB_1].time[side]);
            putchar('\n');
        }
}

/* ---- verdict */

/* All that a kind has above its bar, in one line. */
static void tell_over(const costs *c, const kind *k)
{
    printf("OVER THE BAR of %.2f: %s:", k->bar, k->name);
    for (size_t at = 0; at < SIZES; at++)
        if (by_time(&c->at[at]) > k->bar)
            printf(" %.3f (%s bytes)", by_time(&c->at[at]), sizes[at].name);
    if (growth(c) > GROWTH)
        printf(" growth %.3f (bar %.2f)", growth(c), GROWTH);
    putchar('\n');
}

/* How many kinds are within what most should take: in all sizes, and in each one. */
static void tell_most(const costs all[KINDS])
{
    size_t good = 0;

    for (size_t of = 0; of < KINDS; of++)
        good += within(&all[of], MOST);
    printf("At most %.2f by time: %zu of %d kinds in each size;", MOST, good, KINDS);
    for (size_t at = 0; at < SIZES; at++) {
        size_t there = 0;

        good = 0;
        for (size_t of = 0; of < KINDS; of++) {
            there += has_size(of, at);
            good += has_size(of, at) && by_time(&all[of].at[at]) <= MOST;
        }
        printf(" %zu of %zu (%s bytes)%s", good, there, sizes[at].name, at + 1 < SIZES ? "," : ".\n");
    }
}

/* The worst ratio of all, or nothing where none is known. */
static void tell_worst(const costs all[KINDS], const char *what, double (*by)(const cost *))
{
    size_t worst_of = 0, worst_at = 0;

    for (size_t of = 0; of < KINDS; of++)
        for (size_t at = 0; at < SIZES; at++)
            if (by(&all[of].at[at]) > by(&all[worst_of].at[worst_at])) {
                worst_of = of;
                worst_at = at;
            }
    if (by(&all[worst_of].at[worst_at]) > 0)
        printf("Worst ratio by %s: %.3f, %s, %s bytes.\n", what, by(&all[worst_of].at[worst_at]), kinds[worst_of].name,
               sizes[worst_at].name);
}

bool tell_verdict(const costs all[KINDS])
{
    size_t over = 0;

    putchar('\n');
    for (size_t of = 0; of < KINDS; of++)
        if (!keeps_bar(&all[of], of)) {
            over++;
            tell_over(&all[of], &kinds[of]);
        }
    printf("%zu of %d kinds are over the bar.\n", over, KINDS);
    tell_most(all);
    tell_worst(all, "instructions", by_count);
    tell_worst(all, "time", by_time);
    return over == 0;
}
