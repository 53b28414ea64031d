/* What is left of a call that is answered differently when all is taken away that does not matter. */
#ifndef TRIAL_SHRINK_H
#define TRIAL_SHRINK_H

#include "compare.h"
#include "draft.h"
#include "table.h"

/* A call that is not answered the same, with bytes of its own, and how it is answered. */
typedef struct {
    enum sort sort;
    draft draft;
    table table;
    size_t list_len, text_len;
    uint64_t place;
    verdict v;
} mismatch;

static inline call call_of(const mismatch *m)
{
    const call c = {m->sort,  m->draft.bytes, m->draft.len, m->list_len, m->text_len, m->table.bytes, m->table.len,
                    m->place};

    return c;
}

/* Makes draft, table, room and place smaller as long as there is a difference, whichever it is. */
void shrink(mismatch *m);

#endif
