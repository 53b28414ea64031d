/* A draft that was read, as a weaver thinks of it. */
#ifndef VIEWER_SHOW_H
#define VIEWER_SHOW_H

#include "draft.h"

/* Each entity in words, indented by group, an array before its elements; then what came of it: `sound: 15 entities, 15 steps, 0 cells
 * remain`, or without a table what was read. */
void write_draft(const writer *w, const draft *d);

/* What follows the |; of a draft that was read, as vogieburn_tail says it. */
void write_remarks(const writer *w, const draft *d);

#endif
