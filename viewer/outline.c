#include "outline.h"

/* The groups that are open, and for each end group of the list where its group begins. */
typedef struct {
    uint32_t begins[ROOM];
    uint32_t open[ROOM];
    size_t opened;
} nesting;

/* The elements stand one behind the other before their array, which is at `array`. */
static void tell_elements(const nesting *n, size_t array, uint32_t count, group *groups)
{
    size_t end = array;

    for (uint32_t element = count; element > 0; element--) {
        const uint32_t begin = n->begins[end - 1];

        groups[begin] = (group){element, element == 1 ? count : 0};
        end = begin;
    }
}

void outline(const draft *d, group *groups)
{
    static nesting n;

    n.opened = 0;
    for (size_t i = 0; i < d->answer.entities; i++) {
        const vogieburn_entity *const e = &d->list[i];

        groups[i] = (group){0, 0};
        if (e->kind == VOGIEBURN_BEGIN_GROUP)
            n.open[n.opened++] = (uint32_t)i;
        else if (e->kind == VOGIEBURN_END_GROUP)
            n.begins[i] = n.open[--n.opened];
        else if (e->kind == VOGIEBURN_ARRAY)
            tell_elements(&n, i, e->count, groups);
    }
}
