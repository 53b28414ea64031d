/* Drafts drawn so that they often pass a check. */
#ifndef TRIAL_PASSING_H
#define TRIAL_PASSING_H

#include "draft.h"
#include "lots.h"
#include "table.h"

/* A draft that passes under a sound table unless a slip was drawn, or a limit was crossed. */
void make_passing(lots *l, const table *t, draft *d);

#endif
