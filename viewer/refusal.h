/* Why a draft was refused, in words, with what stands elsewhere and has to do with it. */
#ifndef VIEWER_REFUSAL_H
#define VIEWER_REFUSAL_H

#include "draft.h"
#include "place.h"

/* What there is to say of a refusal. */
typedef struct {
    uint64_t number;
    position at;
    const vogieburn_entity *entity;       /* of 21 to 30: the refused one; else null */
    const vogieburn_operation *operation; /* of 22 to 24 at an operation: it, in the table; of 21: one with a name like it; else null */
    position line;                        /* where that operation stands in the table */
    const char *note;                     /* what stands elsewhere in the draft and has to do with it, in words; or null */
    position noted;                       /* where that stands */
} refusal;

/* The draft was refused. */
refusal refusal_of(const draft *d);

/* The refusal as compilers tell one: `FILE:LINE:COLUMN: refused 28: ...`, the draft's line with a caret, and notes. */
void write_refusal(const writer *w, const draft *d);

#endif
