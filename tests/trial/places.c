#include "places.h"

#include "tally.h"

/* How many places past a draft are taken for such. */
enum { PAST = 2 };

void ask_everywhere(enum sort sort, const draft *d, uint64_t turn)
{
    static const uint64_t far[] = {UINT64_C(1) << 32, (UINT64_C(1) << 32) + 1, UINT64_C(1) << 63, UINT64_MAX};

    for (uint64_t place = 0; place <= d->len + PAST; place++)
        hold_place(sort, d, place);
    hold_place(sort, d, far[turn % COUNT(far)]);
}

void ask_at_ends(enum sort sort, const draft *d)
{
    const uint64_t few = 4;

    for (uint64_t place = 0; place < few && place <= d->len; place++)
        hold_place(sort, d, place);
    hold_place(sort, d, d->len / 2);
    for (uint64_t place = d->len < few ? 0 : d->len - few; place <= d->len + PAST; place++)
        hold_place(sort, d, place);
}

void ask_anywhere(enum sort sort, const draft *d, lots *l, size_t count)
{
    for (; count > 0; count--)
        hold_place(sort, d, below(l, d->len + PAST + 1));
}

void walk(const draft *d)
{
    uint64_t place = 0;

    for (;;) {
        const uint64_t next = hold_place(STEP, d, place).token.next;

        if (next == place)
            break;
        place = next;
    }
    hold_place(STEP, d, place);
}
