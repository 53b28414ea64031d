/* Measures checking: what a check takes beyond reading, of the library and of the yardstick, fast.c.
 *
 *     check
 *
 * Both check the same drafts in one process, by turns, into the same buffers, which nobody clears; the best of many rounds
 * counts. What a check takes beyond reading is its time less that of a read of the same draft. What judging the table takes is
 * the time of a check of the empty draft, which is refused at once, less a read of it. The tables are for docs/COST.md.
 */
#include <stdbool.h>
#include <stdint.h>
#include <stdio.h>

#include "alike.h"
#include "turns.h"
#include "weave.h"

enum {
    ROUNDS = 100,
    LENGTH = VOGIEBURN_DRAFT_LIMIT,
    WOVEN = 4, /* robes that are woven, */
    ROBES      /* and one of a short draft */
};

static const pattern patterns[WOVEN] = {
    {4, PLAIN_SHAPES, 16}, {256, PLAIN_SHAPES, 16}, {4, PLAIN_SHAPES, 128}, {256, SHAPES, 128}};
static const char *const robe_names[ROBES] = {
    "16 KiB, 4 operations, 16 names", "16 KiB, 256 operations, 16 names", "16 KiB, 4 operations, 128 names",
    "16 KiB, 256 operations of many shapes, 128 names", "23 bytes, 1 operation"};

static robe robes[ROBES];
static size_t entities[ROBES]; /* of all drafts of a robe */

/* ---- the calls of both */

static vogieburn_answer archive(const robe *r, bool checks, const uint8_t *draft, size_t draft_len, buffers *b)
{
    if (checks)
        return vogieburn_check(draft, draft_len, b->list, VOGIEBURN_NUMBERS * ROOM, b->text, sizeof b->text,
                               (const uint8_t *)r->table, r->operations * sizeof *r->table);
    return vogieburn_read(draft, draft_len, b->list, VOGIEBURN_NUMBERS * ROOM, b->text, sizeof b->text);
}

static fast_answer fast(const robe *r, bool checks, const uint8_t *draft, size_t draft_len, buffers *b)
{
    fast_entity *rows = (fast_entity *)(void *)b->list;

    if (checks)
        return fast_check(draft, draft_len, rows, ROOM, b->text, sizeof b->text, (const uint8_t *)r->table,
                          r->operations * sizeof *r->table);
    return fast_read(draft, draft_len, rows, ROOM, b->text, sizeof b->text);
}

/* Who is called, and for what; a turn is one of each, for each robe. */
enum { ARCHIVE, FAST, SIDES };
enum { READ, CHECK, READ_EMPTY, CHECK_EMPTY, CALLS };

/* One call for each draft of a robe. */
static void call(size_t which)
{
    static buffers b;
    const robe *r = &robes[which / (SIDES * CALLS)];
    const size_t side = which / CALLS % SIDES, what = which % CALLS;
    const bool checks = what == CHECK || what == CHECK_EMPTY, empty = what == READ_EMPTY || what == CHECK_EMPTY;

    for (size_t i = 0; i < DRAFTS; i++) {
        const draft *d = &r->drafts[i];

        if (side == ARCHIVE)
            archive(r, checks, d->bytes, empty ? 0 : d->len, &b);
        else
            fast(r, checks, d->bytes, empty ? 0 : d->len, &b);
    }
}

/* Whether both leave the same, and what the library answers. */
static bool alike(const robe *r, bool checks, const uint8_t *draft, size_t draft_len, vogieburn_answer *a)
{
    static buffers one, other;
    const fast_answer f = fast(r, checks, draft, draft_len, &other);

    *a = archive(r, checks, draft, draft_len, &one);
    return difference(a, &one, &f, &other) == NULL;
}

/* Each draft passes the check to its end, and both leave the same of it and of the empty one. Counts entities. */
static bool passes(const robe *r, size_t *count)
{
    *count = 0;
    for (size_t i = 0; i < DRAFTS; i++) {
        const uint8_t *bytes = r->drafts[i].bytes;
        const size_t len = r->drafts[i].len;
        vogieburn_answer a;

        if (!alike(r, false, bytes, 0, &a) || !alike(r, true, bytes, 0, &a) || !alike(r, false, bytes, len, &a) ||
            !alike(r, true, bytes, len, &a) || a.number != 0 || a.consumed != len || a.steps != a.entities)
            return false;
        *count += a.entities;
    }
    return true;
}

/* ---- drafts */

/* The draft that document 01 has for a check, again and again. */
static void make_short(robe *r)
{
    const uint8_t takes[] = {VOGIEBURN_ARRAY_OF(VOGIEBURN_CELL_NUMBER)};

    r->operations = (size_t)vogieburn_operation_make(r->table, "bind", 4, takes, sizeof takes, NULL, 0);
    for (size_t i = 0; i < DRAFTS; i++)
        put(&r->drafts[i], (piece)PIECE("%w; [3, 11, 19] bind |;"));
}

static bool make_all(void)
{
    for (size_t i = 0; i < ROBES; i++) {
        if (i < WOVEN)
            weave(&robes[i], &patterns[i], LENGTH);
        else
            make_short(&robes[i]);
        if (!passes(&robes[i], &entities[i])) {
            fprintf(stderr, "check: %s: does not pass, or not alike\n", robe_names[i]);
            return false;
        }
    }
    return true;
}

/* ---- times, in nanoseconds */

/* What the tables tell of a draft, of each side. */
enum { WHOLE, BEYOND, JUDGING, HANDLING, MEASURES };

static double measured[MEASURES][ROBES][SIDES];

static void measure_all(void)
{
    static double best[ROBES * SIDES * CALLS];

    best_of_turns(call, ROBES * SIDES * CALLS, ROUNDS, best);
    for (size_t i = 0; i < ROBES; i++)
        for (size_t side = 0; side < SIDES; side++) {
            double *of = best + (i * SIDES + side) * CALLS;

            for (size_t what = 0; what < CALLS; what++)
                of[what] /= DRAFTS;
            measured[WHOLE][i][side] = of[CHECK];
            measured[BEYOND][i][side] = of[CHECK] - of[READ];
            measured[JUDGING][i][side] = of[CHECK_EMPTY] - of[READ_EMPTY];
            measured[HANDLING][i][side] = measured[BEYOND][i][side] - measured[JUDGING][i][side];
        }
}

/* ---- tables */

static void tell_times(void)
{
    static const char *const names[MEASURES] = {"a check", "a check less a read", "judging the table alone",
                                                "a check less a read and judging"};

    printf("| what | draft | entities | archive, ns | fast.c, ns | archive/fast.c |\n|---|---|---|---|---|---|\n");
    for (size_t what = 0; what < MEASURES; what++)
        for (size_t i = 0; i < ROBES; i++) {
            const double *of = measured[what][i];

            printf("| %s | %s | %zu | %.0f | %.0f |", names[what], robe_names[i], entities[i] / DRAFTS, of[ARCHIVE], of[FAST]);
            tell_ratio(of[ARCHIVE], of[FAST]);
            putchar('\n');
        }
}

/* What checking an entity takes in one draft, as a multiple of what it takes in the first. */
static void tell_growth(const char *what, size_t i)
{
    printf("| %s |", what);
    for (size_t side = 0; side < SIDES; side++)
        tell_ratio(measured[HANDLING][i][side] / (double)entities[i], measured[HANDLING][0][side] / (double)entities[0]);
    putchar('\n');
}

int main(void)
{
    if (!make_all())
        return 1;
    measure_all();
    tell_times();
    printf("\n| growth of an entity's check, the table judged apart | archive | fast.c |\n|---|---|---|\n");
    tell_growth("256 operations to 4", 1);
    tell_growth("128 names to 16", 2);
    return 0;
}
