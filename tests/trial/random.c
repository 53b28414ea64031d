#include "compare.h"
#include "grammar.h"
#include "parts.h"
#include "passing.h"
#include "places.h"
#include "tables.h"
#include "tally.h"

static draft d;
static table t;

/* Drafts come in twos: one as the grammar makes it, and the same damaged. */
static lots draw_reading(uint64_t seed, uint64_t index)
{
    lots l = lots_for(seed, index / 2);

    make_draft(&l, &d);
    if (index % 2 == 1)
        damage_draft(&l, &d);
    return l;
}

/* A table and a draft made for it. Some of either are damaged. */
static lots draw_check(uint64_t seed, uint64_t index)
{
    lots l = lots_for(~seed, index);

    draw_table(&l, &t);
    make_passing(&l, &t, &d);
    if (one_in(&l, 16))
        damage_draft(&l, &d);
    if (one_in(&l, 32))
        break_rule(&l, &t, (enum rule)below(&l, RULES));
    return l;
}

/* Some of what is needed: all of it, one less, or any part. */
static size_t part_of(lots *l, size_t needed)
{
    if (one_in(l, 2))
        return needed;
    if (one_in(l, 2))
        return needed > 0 ? needed - 1 : 0;
    return below(l, needed + 1);
}

/* A call with ample room, and then one with a room that depends on what was held. */
static void hold_twice(lots *l, const table *under)
{
    const vogieburn_answer a = hold(&d, under, (d.len + 4) * VOGIEBURN_NUMBERS, d.len + 4);

    hold(&d, under, part_of(l, (size_t)a.entities) * VOGIEBURN_NUMBERS + below(l, VOGIEBURN_NUMBERS),
         part_of(l, (size_t)a.text));
}

static void hold_reading(uint64_t seed, uint64_t index)
{
    lots l = draw_reading(seed, index);

    begin_draft(index);
    hold_twice(&l, NULL);
}

void try_random_drafts(uint64_t seed, uint64_t count)
{
    begin_part("random");
    for (uint64_t i = 0; i < count; i++)
        hold_reading(seed, i);
}

static void hold_check(uint64_t seed, uint64_t index)
{
    lots l = draw_check(seed, index);

    begin_draft(index);
    hold_twice(&l, &t);
}

void try_random_checks(uint64_t seed, uint64_t count)
{
    begin_part("random checks");
    for (uint64_t i = 0; i < count; i++)
        hold_check(seed, i);
}

/* ---- tails */

/* Whitespace behind a draft, or alone, and all of it damaged or not. Answers where the whitespace began. */
static size_t draw_tail(lots *l, bool damaged)
{
    size_t from;

    d.len = 0;
    if (one_in(l, 2))
        make_draft(l, &d);
    from = d.len;
    for (size_t n = below(l, one_in(l, 8) ? 400 : 12); n > 0; n--)
        put_white(l, &d);
    if (damaged)
        damage_draft(l, &d);
    return from;
}

/* Most places are among the whitespace. */
static void ask_tails(uint64_t seed, uint64_t index)
{
    lots l = lots_for(seed + 1, index);
    const size_t from = draw_tail(&l, index % 2 == 1);

    begin_draft(index);
    hold_place(TAIL, &d, from);
    for (size_t n = 4; n > 0; n--)
        hold_place(TAIL, &d, from + below(&l, d.len > from ? d.len - from : 1));
    ask_anywhere(TAIL, &d, &l, 3);
}

void try_random_tails(uint64_t seed, uint64_t count)
{
    begin_part("random tails");
    for (uint64_t i = 0; i < count; i++)
        ask_tails(seed, i);
}

/* ---- steps */

static void ask_steps(uint64_t seed, uint64_t index)
{
    lots l = draw_reading(seed, index);

    begin_draft(index);
    walk(&d);
    ask_anywhere(STEP, &d, &l, 8);
}

void try_random_steps(uint64_t seed, uint64_t count)
{
    begin_part("random steps");
    for (uint64_t i = 0; i < count; i++)
        ask_steps(seed, i);
}

/* ---- one draft alone */

void repeat_random(uint64_t seed, uint64_t index, enum sort sort)
{
    static const char *const names[SORTS] = {"random", "random checks", "random tails", "random steps"};

    begin_part(names[sort]);
    tell_calls();
    switch (sort) {
    case READING: hold_reading(seed, index); break;
    case CHECK: hold_check(seed, index); break;
    case TAIL: ask_tails(seed, index); break;
    case STEP: ask_steps(seed, index); break;
    case SORTS: break;
    }
}
