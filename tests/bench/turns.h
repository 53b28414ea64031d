/* Times of calls that are made by turns, and how a table tells their quotient. */
#ifndef BENCH_TURNS_H
#define BENCH_TURNS_H

#include <stddef.h>

/* The most calls that are made by turns. */
enum { TURNS = 64 };

/* Makes one of several calls. */
typedef void turn(size_t which);

/* Nanoseconds for each of `len` calls. They are made by turns, so many rounds; the best round of each counts. */
void best_of_turns(turn *make, size_t len, size_t rounds, double best[]);

/* A quotient in a table's row, or a dash where something is not known. */
void tell_ratio(double of, double to);

#endif
