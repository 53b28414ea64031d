#include "listing.h"

#include <inttypes.h>

void write_listing(const writer *w, const draft *d)
{
    for (const vogieburn_entity *e = d->list; e < d->list + d->answer.entities; e++)
        fprintf(w->to, "%" PRIu32 " %" PRIu32 " %" PRIu32 " %" PRIu32 " %" PRIu32 "\n", e->place, e->kind, e->text_len,
                e->data_len, e->count);
    if (d->answer.number == 0)
        fprintf(w->to, "read %" PRIu64 "\n", d->answer.consumed);
    else
        fprintf(w->to, "refused %" PRIu64 " %" PRIu64 "\n", d->answer.number, d->answer.place);
}
