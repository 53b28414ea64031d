/* Mixed drafts as a weaver writes them, each with a table under which it passes the check. */
#ifndef BENCH_WEAVE_H
#define BENCH_WEAVE_H

#include "draft.h"
#include "vogieburn.h"

/* How many shapes of operations there are, by what they take and give; and how many a plain table has. */
enum { SHAPES = 16, PLAIN_SHAPES = 4 };

typedef struct {
    size_t operations; /* in the table */
    size_t shapes;     /* the operations take turns in so many shapes */
    size_t names;      /* that a draft defines, all in its first quarter or soon behind it */
} pattern;

/* So many drafts under one table, since a processor learns a single one by heart. */
enum { DRAFTS = 16 };

typedef struct {
    vogieburn_operation table[VOGIEBURN_OPERATIONS_LIMIT];
    size_t operations;
    draft drafts[DRAFTS];
} robe;

/* Drafts of exactly `len` bytes: operations and names of 1 to 12 bytes in no fixed order, arrays of 0 to 9 elements, groups in groups.
 * The same pattern always gives the same, and patterns that differ in the number of operations alone give drafts of one build. */
void weave(robe *r, const pattern *p, size_t len);

#endif
