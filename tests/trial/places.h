/* Tails and steps at places of one draft. */
#ifndef TRIAL_PLACES_H
#define TRIAL_PLACES_H

#include "compare.h"
#include "draft.h"
#include "lots.h"

/* At each place of the draft, at its end, at two places past it, and at one that is far past it: `turn` says at which. */
void ask_everywhere(enum sort sort, const draft *d, uint64_t turn);

/* At the first places of the draft and at the last, in its middle, and past its end. */
void ask_at_ends(enum sort sort, const draft *d);

/* At so many places drawn by lot, of which some are past the draft. */
void ask_anywhere(enum sort sort, const draft *d, lots *l, size_t count);

/* Steps from place 0 on, each at the place that the one before it told. The last answer is asked for twice. */
void walk(const draft *d);

#endif
