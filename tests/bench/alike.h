/* What the library and the yardstick, fast.c, leave of the same draft, and whether it is the same. */
#ifndef BENCH_ALIKE_H
#define BENCH_ALIKE_H

#include "fast.h"
#include "vogieburn.h"

/* Entities for which a list has room: no byte of a draft brings more than two. */
enum { ROOM = 2 * VOGIEBURN_DRAFT_LIMIT };

/* What is lent to a call. */
typedef struct {
    uint32_t list[VOGIEBURN_NUMBERS * ROOM];
    uint8_t text[VOGIEBURN_DRAFT_LIMIT];
} buffers;

/* In what the answers, the lists or the text differ, or NULL. What is held is wiped, so that no call lives on what another left. */
const char *difference(const vogieburn_answer *a, buffers *by_archive, const fast_answer *f, buffers *by_fast);

#endif
