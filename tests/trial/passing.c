#include "passing.h"

#include <stdbool.h>

#include "grammar.h"

/* Groups and operations drawn inside each other, and the cells and names that are kept in mind; of others nothing is known. */
enum { NESTED = 4, CELLS = 1100, NAMES = 140 };

typedef struct {
    uint8_t kind;
    bool is_count;
    size_t count;
} cell;

typedef struct {
    piece name;
    uint8_t kind;
    bool constant;
} defined;

/* A draft that is being made, with the cells and names that it has so far. Groups are made so that they never reach below. */
typedef struct {
    lots *l;
    draft *d;
    const table *t;
    cell cells[CELLS];
    size_t height;
    defined names[NAMES];
    size_t names_len;
} maker;

/* ---- cells */

static void push(maker *m, cell pushed)
{
    if (m->height < CELLS)
        m->cells[m->height++] = pushed;
}

static bool is_array(uint8_t item)
{
    return item >= KINDS;
}

/* Takes one item from `height` cells, if it is there, and answers how many are left; one more than there are if it is not. */
static size_t without_item(const maker *m, size_t height, uint8_t item)
{
    const size_t none = m->height + 1;
    const cell *top;

    if (height == 0 || height > m->height)
        return none;
    top = &m->cells[height - 1];
    if (!is_array(item))
        return top->kind == item ? height - 1 : none;
    if (!top->is_count || height - 1 < top->count)
        return none;
    for (size_t i = 1; i <= top->count; i++)
        if (m->cells[height - 1 - i].kind != item - KINDS)
            return none;
    return height - 1 - top->count;
}

/* Whether what an operation takes is there. */
static bool fits(const maker *m, const vogieburn_operation *o, size_t *left)
{
    *left = m->height;
    for (size_t i = 0; i < o->takes_len && *left <= m->height; i++)
        *left = without_item(m, *left, o->takes[i]);
    return *left <= m->height;
}

/* ---- tokens */

/* What ends a word. */
static void put_end(maker *m)
{
    if (one_in(m->l, 8))
        put_gap(m->l, m->d);
    else
        put_byte(m->d, ' ');
}

static void put_word(maker *m, piece word)
{
    put(m->d, word);
    put_end(m);
}

static void put_literal(maker *m, uint8_t kind)
{
    if (kind == NUMBER) {
        put_byte(m->d, "+-0123456789"[below(m->l, 12)]);
        put_end(m);
    } else if (one_in(m->l, 2)) {
        put(m->d, (piece)PIECE("\"\""));
    } else {
        put_string(m->l, m->d);
    }
    push(m, (cell){.kind = kind});
}

static void put_signed(maker *m, unsigned sign, piece name)
{
    put_byte(m->d, sign);
    put_word(m, name);
}

static piece name_of(const vogieburn_operation *o)
{
    return (piece){(const char *)o->name, o->name_len};
}

/* ---- names */

static defined *find_name(maker *m, piece name)
{
    for (size_t i = 0; i < m->names_len; i++)
        if (m->names[i].name.len == name.len && memcmp(m->names[i].name.bytes, name.bytes, name.len) == 0)
            return &m->names[i];
    return NULL;
}

/* One of those from a place drawn by lot on that has a kind, and for a put is no constant; null if there is none. */
static const defined *name_with(maker *m, uint8_t kind, bool to_put)
{
    const size_t from = below(m->l, m->names_len + 1);

    for (size_t i = 0; i < m->names_len; i++) {
        const defined *const n = &m->names[(from + i) % m->names_len];

        if (n->kind == kind && !(to_put && n->constant))
            return n;
    }
    return NULL;
}

static const vogieburn_operation *any_operation(maker *m)
{
    return operations_of(m->t) == 0 ? NULL : &m->t->operations[below(m->l, operations_of(m->t))];
}

/* Puts one of many names: none at all, that of an operation, a letter, or much that is shared and some digits. */
static void put_some_name(maker *m)
{
    static const piece shared = PIECE("gilt-thread-on-a-core-of-silk");
    const size_t sort = below(m->l, 8);
    const vogieburn_operation *const o = any_operation(m);

    if (sort == 0)
        return;
    if (sort < 3 && o != NULL) {
        put(m->d, name_of(o));
        return;
    }
    if (sort == 3)
        put(m->d, shared);
    put_byte(m->d, 'a' + (unsigned)below(m->l, 26));
    for (size_t i = sort > 6 || m->names_len > 20 ? 4 : 0; i > 0; i--)
        put_byte(m->d, '0' + (unsigned)below(m->l, 10));
    if (sort == 4)
        put(m->d, shared);
}

/* Puts a name that is new, unless too many were drawn that are not. */
static piece put_new_name(maker *m)
{
    const size_t from = m->d->len;
    piece name = {(const char *)m->d->bytes + from, 0};

    for (size_t tries = 8; tries > 0; tries--) {
        m->d->len = from;
        put_some_name(m);
        name.len = m->d->len - from;
        if (find_name(m, name) == NULL)
            break;
    }
    return name;
}

/* The top cell goes to a new name. If the name is not new after all, that is a slip. */
static void define(maker *m)
{
    const bool constant = one_in(m->l, 3);
    piece name;

    put_byte(m->d, constant ? '@' : '?');
    name = put_new_name(m);
    put_end(m);
    m->height--;
    if (m->names_len < NAMES && find_name(m, name) == NULL)
        m->names[m->names_len++] = (defined){name, m->cells[m->height].kind, constant};
}

/* ---- what is wanted on top */

/* An operation that gives one cell of the kind and takes what can be written down, from a place drawn by lot on. */
static const vogieburn_operation *maker_of(maker *m, uint8_t kind)
{
    const size_t count = operations_of(m->t), from = below(m->l, count + 1);

    for (size_t i = 0; i < count; i++) {
        const vogieburn_operation *const o = &m->t->operations[(from + i) % count];
        size_t literal = 0;

        while (literal < o->takes_len && o->takes[literal] % KINDS <= STRING)
            literal++;
        if (o->gives_len == 1 && o->gives[0] == kind && literal == o->takes_len)
            return o;
    }
    return NULL;
}

/* Whether a cell of a kind can be had: it is a literal's, a name's or one that an operation makes. */
static bool can_have(maker *m, uint8_t kind)
{
    return kind <= STRING || name_with(m, kind, false) != NULL || maker_of(m, kind) != NULL;
}

static void use(maker *m, const vogieburn_operation *o, size_t nested);

/* Gets one more cell of a kind that can be had, and takes none of those that are there. */
static void want(maker *m, uint8_t kind, size_t nested)
{
    const defined *const name = name_with(m, kind, false);
    const vogieburn_operation *const o = maker_of(m, kind);

    if (nested < NESTED && one_in(m->l, 8)) {
        put_byte(m->d, '(');
        want(m, kind, nested + 1);
        put_byte(m->d, ')');
    } else if (name != NULL && (kind > STRING || one_in(m->l, 3))) {
        put_signed(m, '=', name->name);
        push(m, (cell){.kind = kind});
    } else if (o != NULL && (kind > STRING || (nested < NESTED && one_in(m->l, 4)))) {
        use(m, o, nested + 1);
    } else if (kind == NUMBER && one_in(m->l, 8)) {
        put(m->d, (piece)PIECE("[]"));
        push(m, (cell){.is_count = true});
    } else {
        put_literal(m, kind);
    }
}

/* Gets an array of a kind that can be had. */
static void want_array(maker *m, uint8_t kind, size_t nested)
{
    const size_t count = one_in(m->l, 40) ? below(m->l, 200) : below(m->l, 4);

    put_byte(m->d, '[');
    for (size_t i = 0; i < count; i++) {
        if (i > 0)
            put_byte(m->d, ',');
        want(m, kind, nested + 1);
    }
    put_byte(m->d, ']');
    push(m, (cell){.is_count = true, .count = count});
}

/* Names an operation. What it takes is there, or nobody knows what is left. */
static void operate(maker *m, const vogieburn_operation *o)
{
    size_t left;

    put_word(m, name_of(o));
    if (fits(m, o, &left))
        m->height = left;
    for (size_t i = 0; i < o->gives_len; i++)
        push(m, (cell){.kind = o->gives[i]});
}

/* Gets what an operation takes, the lowest first, and names it. */
static void use(maker *m, const vogieburn_operation *o, size_t nested)
{
    for (size_t i = o->takes_len; i > 0; i--)
        if (is_array(o->takes[i - 1]))
            want_array(m, o->takes[i - 1] - KINDS, nested);
        else
            want(m, o->takes[i - 1], nested);
    operate(m, o);
}

/* An operation, if all that it takes can be had. */
static void use_any(maker *m)
{
    const vogieburn_operation *const o = any_operation(m);

    if (o == NULL)
        return;
    for (size_t i = 0; i < o->takes_len; i++)
        if (!can_have(m, o->takes[i] % KINDS))
            return;
    use(m, o, 0);
}

/* An operation that takes what is there, the first from a place drawn by lot on. */
static void use_fitting(maker *m)
{
    const size_t count = operations_of(m->t), from = below(m->l, count + 1);
    size_t left;

    for (size_t i = 0; i < count; i++) {
        const vogieburn_operation *const o = &m->t->operations[(from + i) % count];

        if (o->takes_len > 0 && fits(m, o, &left)) {
            operate(m, o);
            return;
        }
    }
}

static uint8_t any_kind(maker *m)
{
    const uint8_t kind = (uint8_t)below(m->l, one_in(m->l, 8) ? KINDS : 4);

    return can_have(m, kind) ? kind : STRING;
}

/* A variable gets a cell of its kind: the top one if it is, else a new one. */
static void put_any(maker *m)
{
    const uint8_t top = m->height > 0 ? m->cells[m->height - 1].kind : any_kind(m);
    const defined *const name = name_with(m, top, true);

    if (name == NULL)
        return;
    if (m->height == 0 || one_in(m->l, 2))
        want(m, top, 0);
    put_signed(m, ':', name->name);
    m->height--;
}

/* ---- slips */

/* An operation's name with a byte more or less, or any word. */
static void slip_word(maker *m)
{
    const vogieburn_operation *const o = any_operation(m);

    if (o != NULL && !one_in(m->l, 4))
        put_bytes(m->d, o->name, o->name_len - below(m->l, 2));
    if (one_in(m->l, 2))
        put_byte(m->d, 'a' + (unsigned)below(m->l, 26));
    put_end(m);
}

/* A sign before any name, and before it a literal, an empty array or nothing. */
static void slip_name(maker *m)
{
    const size_t before = below(m->l, 4);

    if (before < 2)
        put_literal(m, (uint8_t)before);
    else if (before == 2)
        put(m->d, (piece)PIECE("[]"));
    put_byte(m->d, "?@=:"[below(m->l, 4)]);
    if (m->names_len > 0 && !one_in(m->l, 4))
        put_word(m, m->names[below(m->l, m->names_len)].name);
    else
        slip_word(m);
}

/* An operation without what it takes, or with something else on top, with nothing but a number for an array, or with all of it
 * hidden. */
static void slip_operation(maker *m)
{
    const vogieburn_operation *const o = any_operation(m);
    const size_t sort = below(m->l, 4);

    if (o == NULL)
        return;
    if (sort == 1)
        put_literal(m, (uint8_t)below(m->l, 2));
    for (size_t i = sort < 2 ? 0 : o->takes_len; i > 0; i--)
        want(m, is_array(o->takes[i - 1]) || !can_have(m, o->takes[i - 1]) ? NUMBER : o->takes[i - 1], NESTED);
    if (sort == 3)
        put_byte(m->d, '(');
    operate(m, o);
    if (sort == 3)
        put_byte(m->d, ')');
}

static void slip(maker *m)
{
    static const piece groups[] = {PIECE("()"),   PIECE("(1 1)"), PIECE("[1,]"), PIECE("[,1]"),  PIECE("[\"\",1]"),
                                   PIECE("([])"), PIECE("([1])"), PIECE("[[1]]"), PIECE("(1 ?)"), PIECE("1(:a )")};

    switch (below(m->l, 5)) {
    case 0: slip_word(m); break;
    case 1:
    case 2: slip_name(m); break;
    case 3: slip_operation(m); break;
    default: put(m->d, groups[below(m->l, COUNT(groups))]); break;
    }
}

/* ---- a draft */

/* About as many cells, names or groups as there may be. */
static void crowd(maker *m)
{
    const size_t depth = 56 + below(m->l, 10), height = 1016 + below(m->l, 10), names = 122 + below(m->l, 8);

    switch (below(m->l, 3)) {
    case 0:
        put_many(m->d, '(', depth);
        want(m, any_kind(m), NESTED);
        put_many(m->d, ')', depth);
        break;
    case 1:
        while (m->height < height)
            put_literal(m, NUMBER);
        break;
    default:
        for (size_t i = 0; i < 2 * NAMES && m->names_len < names; i++) {
            put_literal(m, NUMBER);
            define(m);
        }
        break;
    }
}

static void statement(maker *m)
{
    switch (below(m->l, 12)) {
    case 0: put_metacommand(m->l, m->d); break;
    case 1:
    case 2: want(m, any_kind(m), 0); break;
    case 3: want_array(m, any_kind(m), 0); break;
    case 4: put_any(m); break;
    case 5:
    case 6:
        if (m->height == 0 || one_in(m->l, 2))
            want(m, any_kind(m), 0);
        define(m);
        break;
    case 7:
    case 8: use_fitting(m); break;
    default: use_any(m); break;
    }
}

void make_passing(lots *l, const table *t, draft *d)
{
    static maker m;
    const size_t slips = 4 + 16 * below(l, 8);

    m.l = l;
    m.d = d;
    m.t = t;
    m.height = m.names_len = d->len = 0;
    for (size_t n = below(l, 20); n > 0; n--) {
        if (one_in(l, 200))
            crowd(&m);
        if (one_in(l, slips))
            slip(&m);
        statement(&m);
    }
    put(d, (piece)PIECE("|;"));
}
