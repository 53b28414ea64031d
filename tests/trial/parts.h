/* The parts of the trial. In the short form each takes less, and always the same. */
#ifndef TRIAL_PARTS_H
#define TRIAL_PARTS_H

#include <stdbool.h>
#include <stdint.h>

#include "compare.h"
#include "table.h"

/* Every draft of few symbols, and of few bytes. */
void try_every_draft(bool short_form);

/* The same of what the check tells apart. */
void try_every_check(bool short_form);

/* A tail, or a step, at every place of every draft of few symbols, and of few bytes. */
void try_every_tail(bool short_form);
void try_every_step(bool short_form);

/* Drafts at each limit of reading (document 01), one below it and one above it, for calls of a sort; those that check have a table. Tails
 * and steps have fewer limits. */
void try_limits(enum sort sort, const table *t);

/* Tables at each of their rules. */
void try_tables(void);

/* Drafts at each limit of the check, and of groups and arrays that it tells apart. */
void try_cells(void);

/* Drafts drawn from a grammar, as many as `count`, every other one damaged. */
void try_random_drafts(uint64_t seed, uint64_t count);

/* Tables drawn by lot, and drafts that often pass under them. */
void try_random_checks(uint64_t seed, uint64_t count);

/* Whitespace behind drafts, or alone, with something else in every other one. */
void try_random_tails(uint64_t seed, uint64_t count);

/* Drafts drawn from the grammar, stepped through from their start and stepped into anywhere. */
void try_random_steps(uint64_t seed, uint64_t count);

/* Makes the calls of a sort with one of the random drafts alone, and tells each with its answer. */
void repeat_random(uint64_t seed, uint64_t index, enum sort sort);

#endif
