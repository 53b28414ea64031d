/* What the trial has held against each other so far. */
#ifndef TRIAL_TALLY_H
#define TRIAL_TALLY_H

#include <stdbool.h>
#include <stddef.h>
#include <stdint.h>

#include "compare.h"
#include "draft.h"
#include "table.h"
#include "vogieburn.h"

/* The seed is told with every mismatch. Whoever touches what it may not is told before the program is stopped. */
void begin_tally(uint64_t seed);

/* Every draft from here on belongs to this part; the part before is told. An empty name only tells. */
void begin_part(const char *name);

/* Begins the next draft of the part. `index` is what it can be found by again. */
void begin_draft(uint64_t index);

/* From here on each call is told with its answer. */
void tell_calls(void);

/* Reads a draft with room for so many numbers and bytes, or checks it, if there is a table. At a mismatch the call is shrunk and
 * told, and the program ends. */
vogieburn_answer hold(const draft *d, const table *t, size_t list_len, size_t text_len);

/* The same of a tail or a step at a place of the draft, or past it. */
any_answer hold_place(enum sort sort, const draft *d, uint64_t place);

/* Tells how often each answer was met, of each sort of call. False if one that there is was never met; if no call of a sort was made,
 * none is missed. */
bool tell_tally(void);

#endif
