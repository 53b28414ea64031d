#include "tables.h"

enum { NAME_ROOM = sizeof((vogieburn_operation *)0)->name, ITEM_ROOM = 8 };

/* ---- names */

/* Letters of few, so that names are often equal, or one begins or ends with another. */
static size_t draw_letters(lots *l, uint8_t *to, size_t len, size_t letters)
{
    for (size_t i = 0; i < len; i++)
        to[i] = (uint8_t)('a' + below(l, letters));
    return len;
}

/* About as long as a name may be, and alike but for one or two bytes. */
static size_t draw_long(lots *l, uint8_t *to)
{
    const size_t len = NAME_ROOM - below(l, 4);

    memset(to, 'm', len);
    draw_letters(l, to + below(l, len), 1, 26);
    draw_letters(l, to + below(l, len), 1, 26);
    return len;
}

/* Any bytes, also such as no token has. */
static size_t draw_any(lots *l, uint8_t *to)
{
    const size_t len = 1 + below(l, one_in(l, 8) ? NAME_ROOM : 4);

    for (size_t i = 0; i < len; i++)
        to[i] = (uint8_t)below(l, 256);
    return len;
}

/* The names of a table are of one family. Few tables have names of any bytes, since a draft that has such a name is not read. */
enum { LETTERS, SHARED_START, SHARED_END, LONG, MARKED, ANY };

static size_t draw_family(lots *l)
{
    return one_in(l, 32) ? ANY : below(l, ANY);
}

static size_t draw_name(lots *l, size_t family, uint8_t *to)
{
    static const char common[] = "selvedge", marks[] = "}|~<!*";
    const size_t common_len = sizeof common - 1;

    switch (family) {
    case LETTERS: return draw_letters(l, to, 1 + below(l, 3), 3);
    case SHARED_START:
        memcpy(to, common, common_len);
        return common_len + draw_letters(l, to + common_len, below(l, 3), 26);
    case SHARED_END:
        draw_letters(l, to, 2, 26);
        memcpy(to + 2, common, common_len);
        return 2 + common_len;
    case LONG: return draw_long(l, to);
    case MARKED:
        to[0] = (uint8_t)marks[below(l, sizeof marks - 1)];
        return 1 + draw_letters(l, to + 1, below(l, 3), 5);
    default: return draw_any(l, to);
    }
}

/* ---- operations */

/* Most often one of the first few. */
static uint8_t draw_kind(lots *l)
{
    return (uint8_t)below(l, one_in(l, 16) ? KINDS : 4);
}

/* A few, or as many as there may be. */
static uint8_t draw_len(lots *l, size_t few)
{
    return (uint8_t)(one_in(l, 24) ? ITEM_ROOM : below(l, few + 1));
}

/* Every fourth operation makes a house's kind of a literal or of nothing, since nothing else does. */
static void draw_operation(lots *l, vogieburn_operation *o)
{
    if (one_in(l, 4)) {
        o->takes_len = (uint8_t)below(l, 2);
        o->gives_len = 1;
        o->gives[0] = (uint8_t)(2 + below(l, 2));
        return;
    }
    o->takes_len = draw_len(l, 3);
    for (size_t i = 0; i < o->takes_len; i++)
        o->takes[i] = (uint8_t)(draw_kind(l) + (one_in(l, 3) ? KINDS : 0));
    o->gives_len = draw_len(l, 2);
    for (size_t i = 0; i < o->gives_len; i++)
        o->gives[i] = draw_kind(l);
}

static bool same_name(const vogieburn_operation *a, const vogieburn_operation *b)
{
    return a->name_len == b->name_len && memcmp(a->name, b->name, a->name_len) == 0;
}

/* Puts an operation behind the others, unless its name is one of theirs. */
static void put_drawn(lots *l, table *t, size_t family)
{
    vogieburn_operation *const o = put_empty(t);

    o->name_len = (uint8_t)draw_name(l, family, o->name);
    for (const vogieburn_operation *other = t->operations; other < o; other++)
        if (same_name(other, o)) {
            t->len -= sizeof *o;
            return;
        }
    draw_operation(l, o);
}

void draw_table(lots *l, table *t)
{
    const bool many = one_in(l, 64);
    const size_t wanted = many ? OPERATIONS - below(l, 2) : below(l, 12);
    const size_t family = many ? SHARED_START + below(l, 3) : draw_family(l);

    t->len = 0;
    for (size_t tries = 4 * wanted; tries > 0 && operations_of(t) < wanted; tries--)
        put_drawn(l, t, family);
}

/* ---- rules broken */

/* More items or kinds than there may be. */
static void too_many(lots *l, uint8_t *len)
{
    *len = (uint8_t)(one_in(l, 2) ? ITEM_ROOM + 1 : ITEM_ROOM + 1 + below(l, 255 - ITEM_ROOM));
}

/* One of the items or kinds at or past a limit. */
static void too_great(lots *l, uint8_t *len, uint8_t *items, size_t limit)
{
    if (*len == 0)
        *len = 1;
    items[below(l, *len)] = (uint8_t)(one_in(l, 2) ? limit : limit + below(l, 256 - limit));
}

/* A byte behind a name, items or kinds; if there is none, they lose their last. */
static void not_zero(lots *l, uint8_t *len, uint8_t *bytes, size_t room)
{
    if (*len == room)
        --*len;
    bytes[*len + below(l, room - *len)] = (uint8_t)(one_in(l, 2) ? 1 : 1 + below(l, 255));
}

static void name_twice(lots *l, table *t)
{
    vogieburn_operation *o;
    size_t from, to;

    if (operations_of(t) == 1) {
        o = put_empty(t);
        *o = t->operations[0];
        return;
    }
    from = below(l, operations_of(t));
    to = (from + 1 + below(l, one_in(l, 2) ? 1 : operations_of(t) - 1)) % operations_of(t);
    o = &t->operations[to];
    o->name_len = t->operations[from].name_len;
    memcpy(o->name, t->operations[from].name, sizeof o->name);
}

/* Names of two bytes, which differ from one another. */
static void more_than_256(table *t)
{
    t->len = 0;
    for (unsigned i = 0; i <= OPERATIONS; i++) {
        const char name[] = {(char)('A' + i % 26), (char)('A' + i / 26)};

        put_operation(t, (operation){{name, sizeof name}, PIECE(""), PIECE("")});
    }
}

void break_rule(lots *l, table *t, enum rule broken)
{
    vogieburn_operation *o;

    if (t->len == 0)
        put_operation(t, (operation){PIECE("a"), PIECE(""), PIECE("")});
    o = &t->operations[below(l, operations_of(t))];
    switch (broken) {
    case WHOLE_OPERATIONS: t->len -= 1 + below(l, sizeof *o - 1); break;
    case AT_MOST_256: more_than_256(t); break;
    case A_NAME: memset(o, 0, 1 + sizeof o->name); break;
    case ZEROS_BEHIND_NAME: not_zero(l, &o->name_len, o->name, sizeof o->name); break;
    case AT_MOST_8_ITEMS: too_many(l, &o->takes_len); break;
    case ITEMS_BELOW_32: too_great(l, &o->takes_len, o->takes, 2 * KINDS); break;
    case ZEROS_BEHIND_ITEMS: not_zero(l, &o->takes_len, o->takes, sizeof o->takes); break;
    case AT_MOST_8_KINDS: too_many(l, &o->gives_len); break;
    case KINDS_BELOW_16: too_great(l, &o->gives_len, o->gives, KINDS); break;
    case ZEROS_BEHIND_KINDS: not_zero(l, &o->gives_len, o->gives, sizeof o->gives); break;
    case NO_NAME_TWICE: name_twice(l, t); break;
    case RULES: break;
    }
}
