#include "weave.h"

#include <assert.h>
#include <stdio.h>
#include <string.h>

#include "number.h"

enum {
    SEED = 20250101,
    WORD = 12,  /* bytes that a name has, at most */
    DEPTH = 3,  /* how far operations, groups and arrays stand in each other */
    KINDS = 5,  /* kinds of cells in use */
    TRIES = 100 /* statements that are tried where the last did not fit */
};

typedef struct {
    size_t len;
    char bytes[WORD + 1];
} word;

typedef struct {
    word is;
    unsigned kind;
    bool constant;
} name;

/* What is being woven. */
typedef struct {
    robe *r;
    const pattern *p;
    draft *d;
    lots l;
    name names[VOGIEBURN_NAMES_LIMIT];
    size_t defined;
} loom;

typedef struct {
    size_t takes_len;
    uint8_t takes[VOGIEBURN_TAKES_LIMIT];
    size_t gives_len;
    uint8_t gives[VOGIEBURN_GIVES_LIMIT];
} shape;

enum { NUMBER = VOGIEBURN_CELL_NUMBER, STRING = VOGIEBURN_CELL_STRING, THREAD = VOGIEBURN_CELL_HOUSE, DYE, MOTIF };

/* Of each kind of the house's the first shape that gives it takes only kinds before it, so that each can be made. */
static const shape shapes[SHAPES] = {
    {1, {VOGIEBURN_ARRAY_OF(NUMBER)}, 1, {THREAD}},
    {2, {NUMBER, NUMBER}, 1, {NUMBER}},
    {2, {STRING, THREAD}, 1, {THREAD}},
    {2, {VOGIEBURN_ARRAY_OF(THREAD), NUMBER}, 0, {0}},
    {0, {0}, 1, {NUMBER}},
    {1, {NUMBER}, 2, {NUMBER, NUMBER}},
    {1, {STRING}, 1, {DYE}},
    {3, {DYE, NUMBER, NUMBER}, 1, {DYE}},
    {1, {VOGIEBURN_ARRAY_OF(STRING)}, 1, {STRING}},
    {2, {VOGIEBURN_ARRAY_OF(DYE), VOGIEBURN_ARRAY_OF(NUMBER)}, 1, {MOTIF}},
    {5, {MOTIF, DYE, THREAD, STRING, NUMBER}, 0, {0}},
    {8, {NUMBER, NUMBER, NUMBER, NUMBER, NUMBER, NUMBER, NUMBER, NUMBER}, 1, {THREAD}},
    {1, {MOTIF}, 3, {NUMBER, STRING, THREAD}},
    {2, {STRING, STRING}, 1, {STRING}},
    {1, {THREAD}, 0, {0}},
    {1, {NUMBER}, 1, {DYE}},
};

/* ---- words */

/* A word of 1 to 12 bytes: every other one of letters alone, the others a stem and a number. */
static word draw_word(loom *w, size_t i)
{
    static const char letters[] = "etaoinshrdlucmfwypvbgkjqxzETAOINSHRDLUCMFWYPVBGKJQXZ";
    static const char *const stems[] = {"warp", "pick-", "w", "border.", "shed", "reed/"};
    word is = {0, ""};

    if (i % 2 == 1) {
        is.len = (size_t)snprintf(is.bytes, sizeof is.bytes, "%s%zu", stems[i / 2 % COUNT(stems)], i);
        return is;
    }
    for (is.len = 0; is.len < 1 + (5 * (i / 2) + 4) % WORD; is.len++)
        is.bytes[is.len] = letters[below(&w->l, sizeof letters - 1)];
    return is;
}

static bool in_table(const robe *r, const word *is)
{
    for (size_t i = 0; i < r->operations; i++)
        if (r->table[i].name_len == is->len && memcmp(r->table[i].name, is->bytes, is->len) == 0)
            return true;
    return false;
}

static bool is_defined(const loom *w, const word *is)
{
    for (size_t i = 0; i < w->defined; i++)
        if (w->names[i].is.len == is->len && memcmp(w->names[i].is.bytes, is->bytes, is->len) == 0)
            return true;
    return false;
}

static void make_table(loom *w)
{
    robe *r = w->r;

    for (r->operations = 0; r->operations < w->p->operations; r->operations++) {
        const shape *s = &shapes[r->operations % w->p->shapes];
        word is = draw_word(w, r->operations);
        int made;

        while (in_table(r, &is))
            is = draw_word(w, r->operations);
        made = vogieburn_operation_make(&r->table[r->operations], is.bytes, is.len, s->takes, s->takes_len, s->gives, s->gives_len);
        assert(made);
        (void)made;
    }
}

/* ---- tokens */

/* A token, with a blank before it unless it stands at the start of a line or of what is in brackets. */
static void put_token(loom *w, const char *sign, const void *bytes, size_t len)
{
    if (w->d->len > 0 && strchr("\n([", w->d->bytes[w->d->len - 1]) == NULL)
        put_byte(w->d, ' ');
    put_bytes(w->d, sign, strlen(sign));
    put_bytes(w->d, bytes, len);
}

static void put_literal(loom *w)
{
    put_token(w, "", "", 0);
    put_number(w->d, &w->l);
}

static void put_string(loom *w)
{
    static const piece strings[] = {PIECE("\"gilt\""), PIECE("\"indigo, twice dipped\""), PIECE("{left {over} right}"),
                                    PIECE("\"\""),     PIECE("pbm\"border of the hem\""), PIECE("{silk}")};
    const piece *p = &strings[below(&w->l, COUNT(strings))];

    put_token(w, "", p->bytes, p->len);
}

/* ---- names */

/* One of the names of a kind, or NULL where there is none. */
static const name *draw_name(loom *w, unsigned kind, bool put)
{
    const name *of_kind[VOGIEBURN_NAMES_LIMIT];
    size_t len = 0;

    for (size_t i = 0; i < w->defined; i++)
        if (w->names[i].kind == kind && !(put && w->names[i].constant))
            of_kind[len++] = &w->names[i];
    return len > 0 ? of_kind[below(&w->l, len)] : NULL;
}

static void put_name(loom *w, const char *sign, const name *n)
{
    put_token(w, sign, n->is.bytes, n->is.len);
}

/* ---- values */

static void put_value(loom *w, unsigned kind, size_t depth);

/* An array of the kind: its cells, and its count. */
static void put_array(loom *w, unsigned kind, size_t depth)
{
    const size_t len = below(&w->l, 1 + below(&w->l, 10));

    put_token(w, "[", "", 0);
    for (size_t i = 0; i < len; i++) {
        if (i > 0)
            put_byte(w->d, ',');
        put_value(w, kind, depth);
    }
    put_byte(w->d, ']');
}

/* An operation of the shape, behind what it takes. */
static void put_operation(loom *w, size_t of, size_t depth)
{
    const shape *s = &shapes[of];
    const size_t of_shape = (w->p->operations - of + w->p->shapes - 1) / w->p->shapes;
    const vogieburn_operation *o = &w->r->table[of + w->p->shapes * below(&w->l, of_shape)];

    for (size_t i = s->takes_len; i-- > 0;) {
        const unsigned item = s->takes[i];

        if (item >= VOGIEBURN_ARRAY_OF(0))
            put_array(w, item - VOGIEBURN_ARRAY_OF(0), depth);
        else
            put_value(w, item, depth);
    }
    put_token(w, "", o->name, o->name_len);
}

/* The shapes that give just a cell of the kind. */
static size_t shapes_giving(const loom *w, unsigned kind, size_t giving[])
{
    size_t len = 0;

    for (size_t i = 0; i < w->p->shapes; i++)
        if (shapes[i].gives_len == 1 && shapes[i].gives[0] == kind)
            giving[len++] = i;
    return len;
}

/* Parentheses, one to four deep, around a value. */
static void put_group(loom *w, unsigned kind, size_t depth)
{
    const size_t deep = 1 + below(&w->l, 4);

    put_token(w, "(", "", 0);
    put_many(w->d, '(', deep - 1);
    put_value(w, kind, depth);
    put_many(w->d, ')', deep);
}

/* What leaves one cell of the kind. Where nothing may stand in it, it is a literal or a name; a kind of which no name is defined
 * yet comes of the first shape that gives it. */
static void put_value(loom *w, unsigned kind, size_t depth)
{
    const size_t way = below(&w->l, 8);
    const name *n = draw_name(w, kind, false);
    size_t giving[SHAPES];
    const size_t giving_len = shapes_giving(w, kind, giving);

    if (depth > 0 && way == 0)
        put_group(w, kind, depth - 1);
    else if (depth > 0 && way <= 2 && giving_len > 0)
        put_operation(w, giving[below(&w->l, giving_len)], depth - 1);
    else if (n != NULL && (way <= 4 || kind >= THREAD))
        put_name(w, "=", n);
    else if (kind == NUMBER)
        put_literal(w);
    else if (kind == STRING)
        put_string(w);
    else
        put_operation(w, giving[0], 0);
}

/* ---- statements, which leave no cell */

/* A value, and the name that it defines. Every third one is a constant, but of each kind the first is a variable. */
static void put_definition(loom *w, unsigned kind, size_t depth)
{
    name n = {draw_word(w, w->defined), kind, draw_name(w, kind, false) != NULL && one_in(&w->l, 3)};

    while (is_defined(w, &n.is))
        n.is = draw_word(w, w->defined);
    put_value(w, kind, depth);
    put_name(w, n.constant ? "@" : "?", &n);
    w->names[w->defined++] = n;
}

/* An operation, and puts that take what it gives. */
static void put_work(loom *w, size_t depth)
{
    const size_t of = below(&w->l, w->p->shapes);

    put_operation(w, of, depth);
    for (size_t i = shapes[of].gives_len; i-- > 0;)
        put_name(w, ":", draw_name(w, shapes[of].gives[i], true));
}

/* Kinds that the shapes in use have. */
static unsigned kinds(const loom *w)
{
    return w->p->shapes > PLAIN_SHAPES ? KINDS : THREAD + 1;
}

static void put_statement(loom *w, size_t depth)
{
    static const piece remarks[] = {PIECE("%robe \"third\" 12;"), PIECE("%page 4;"), PIECE("# the left border")};
    const unsigned kind = (unsigned)below(&w->l, kinds(w));
    const size_t way = below(&w->l, 40);

    if (way == 0) {
        put(w->d, remarks[below(&w->l, COUNT(remarks))]);
    } else if (way < 6) {
        put_value(w, kind, depth);
        put_name(w, ":", draw_name(w, kind, true));
    } else {
        put_work(w, depth);
    }
}

/* How many names are to be defined by now: all of them when a quarter of the draft is there. */
static size_t due(const loom *w, size_t len)
{
    const size_t so_far = 4 * w->d->len * w->p->names / len;

    return so_far < w->p->names ? so_far : w->p->names;
}

/* One draft. Statements are put until the room for them is short, then small ones, as long as they fit. */
static void weave_draft(loom *w, size_t len)
{
    size_t tries = 0;

    w->defined = 0;
    w->d->len = 0;
    for (unsigned kind = 0; kind < kinds(w); kind++) {
        put_definition(w, kind, 0);
        put_byte(w->d, '\n');
    }
    while (tries < TRIES) {
        const size_t before = w->d->len;

        if (w->defined < due(w, len))
            put_definition(w, (unsigned)below(&w->l, kinds(w)), 1);
        else
            put_statement(w, tries > 0 ? 0 : DEPTH);
        put_byte(w->d, '\n');
        if (w->d->len + 2 > len) {
            w->d->len = before;
            tries++;
        }
    }
    put_many(w->d, ' ', len - 2 - w->d->len);
    put_bytes(w->d, "|;", 2);
}

void weave(robe *r, const pattern *p, size_t len)
{
    loom w = {.r = r, .p = p, .l = {SEED}};

    make_table(&w);
    for (size_t i = 0; i < DRAFTS; i++) {
        w.d = &r->drafts[i];
        w.l = lots_for(SEED, i);
        weave_draft(&w, len);
    }
}
