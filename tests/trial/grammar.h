/* Drafts drawn by lot. */
#ifndef TRIAL_GRAMMAR_H
#define TRIAL_GRAMMAR_H

#include "draft.h"
#include "lots.h"

/* A draft of all that a draft may hold, most often one that can be read to its end. */
void make_draft(lots *l, draft *d);

/* One whitespace character; CR with LF is one. */
void put_white(lots *l, draft *d);

/* Whitespace and comments. */
void put_gap(lots *l, draft *d);

/* A quoted or a curly string, with a prefix or without one. */
void put_string(lots *l, draft *d);

void put_metacommand(lots *l, draft *d);

/* Changes, drops, puts in or cuts off a few bytes. */
void damage_draft(lots *l, draft *d);

#endif
