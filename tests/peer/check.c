/* The check of the second reader; peer.h says what it is for. Names are looked for one by one: it is to be plain, not fast.
 *
 * "01" is the document, and a number from 20 to 30 is a refusal of it.
 */
#include <stdbool.h>
#include <string.h>

#include "peer.h"

/* 01, "Numbers of refusal". */
enum refusal {
    NONE = 0,
    TABLE_BREAKS_ITS_RULES = 20,
    OPERATION_UNKNOWN = 21,
    TOO_FEW_CELLS = 22,
    WRONG_KIND = 23,
    ARRAY_WANTED = 24,
    NAME_DEFINED = 25,
    NAME_NOT_DEFINED = 26,
    PUT_TO_CONSTANT = 27,
    NOT_ONE_CELL = 28,
    TOO_MANY_CELLS = 29,
    TOO_MANY_NAMES = 30
};

/* The limits of 17, 29, 30 and 20. */
enum {
    GROUP_LIMIT = 64,
    CELL_LIMIT = PEER_WRONG == 12 ? 1025 : 1024,
    NAME_LIMIT = PEER_WRONG == 14 ? 129 : 128,
    OPERATION_LIMIT = 256,
    ITEM_LIMIT = 8
};

/* Kinds of cells, and how many there are. An item of KINDS more is an array of the kind. */
enum { NUMBER = 0, STRING = 1, KINDS = 16 };

/* A count has the kind of a number, since it serves as one. */
typedef struct {
    uint8_t kind;
    bool is_count;
    uint32_t count;
} cell;

/* A variable or a constant, and the kind that its definition fixed. */
typedef struct {
    const uint8_t *bytes;
    size_t len;
    uint8_t kind;
    bool constant;
} name;

/* The check, as far as it has come. */
typedef struct {
    const vogieburn_operation *table;
    size_t operations;
    size_t height; /* cells, hidden ones counted */
    size_t hidden; /* of these, from the lowest up */
    size_t groups; /* open */
    size_t names_len;
    cell cells[CELL_LIMIT];
    size_t hidden_before[GROUP_LIMIT]; /* of each open group: the cells that were hidden where it began */
    name names[NAME_LIMIT];
} checker;

/* ---- the table (01, "Cells and operations", and docs/LAYOUT.md) */

static bool all_zero(const uint8_t *bytes, size_t len)
{
    for (size_t i = 0; i < len; i++)
        if (bytes[i] != 0)
            return false;
    return true;
}

/* At most 8 items or kinds, each below a limit, and zeros behind them. */
static bool sound_items(const uint8_t *items, size_t len, unsigned limit)
{
    if (len > ITEM_LIMIT)
        return false;
    for (size_t i = 0; i < len; i++)
        if (items[i] >= limit)
            return false;
    return all_zero(items + len, ITEM_LIMIT - len);
}

static bool sound_operation(const vogieburn_operation *o)
{
    return o->name_len > 0 && all_zero(o->name + o->name_len, sizeof o->name - o->name_len) &&
           sound_items(o->takes, o->takes_len, 2 * KINDS) && sound_items(o->gives, o->gives_len, KINDS);
}

static bool same_bytes(const uint8_t *a, size_t a_len, const uint8_t *b, size_t b_len)
{
    return a_len == b_len && memcmp(a, b, a_len) == 0;
}

static bool same_names(const vogieburn_operation *a, const vogieburn_operation *b)
{
    return same_bytes(a->name, a->name_len, b->name, b->name_len);
}

static bool sound_table(const vogieburn_operation *table, size_t table_len)
{
    const size_t operations = table_len / sizeof *table;

    if (table_len % sizeof *table != 0 || operations > OPERATION_LIMIT)
        return false;
    for (size_t i = 0; i < operations; i++) {
        if (!sound_operation(&table[i]))
            return false;
        for (size_t j = PEER_WRONG == 16 && i > 0 ? i - 1 : 0; j < i; j++)
            if (same_names(&table[i], &table[j]))
                return false;
    }
    return true;
}

/* ---- cells */

static size_t in_sight(const checker *c)
{
    return c->height - c->hidden;
}

/* How many cells can be taken: those in sight. */
static size_t in_reach(const checker *c)
{
    return PEER_WRONG == 7 ? c->height : in_sight(c);
}

static enum refusal push(checker *c, cell pushed)
{
    if (c->height == CELL_LIMIT)
        return TOO_MANY_CELLS;
    c->cells[c->height++] = pushed;
    return NONE;
}

static enum refusal push_kind(checker *c, uint8_t kind)
{
    return push(c, (cell){.kind = kind});
}

/* Takes the top cell. It can still be looked at, right above those that are left. */
static enum refusal take(checker *c, uint8_t kind)
{
    if (PEER_WRONG == 8 && c->height > 0 && c->cells[c->height - 1].kind != kind)
        return WRONG_KIND;
    if (in_reach(c) == 0)
        return TOO_FEW_CELLS;
    if (c->cells[c->height - 1].kind != kind)
        return WRONG_KIND;
    c->height--;
    return NONE;
}

/* Takes a count and as many cells of a kind. A cell that is no number is 23, and a number that is no count 24. */
static enum refusal take_array(checker *c, uint8_t kind)
{
    const enum refusal refused = take(c, NUMBER);
    const cell *const top = &c->cells[c->height];

    if (refused != NONE)
        return refused;
    if (!top->is_count && PEER_WRONG != 9)
        return ARRAY_WANTED;
    if (in_reach(c) < top->count)
        return TOO_FEW_CELLS;
    for (size_t i = 1; i <= top->count; i++)
        if (c->cells[c->height - i].kind != kind)
            return WRONG_KIND;
    c->height -= top->count;
    return NONE;
}

/* ---- entities */

static enum refusal begin_group(checker *c)
{
    c->hidden_before[c->groups++] = c->hidden;
    c->hidden = c->height;
    return NONE;
}

static enum refusal end_group(checker *c)
{
    if (PEER_WRONG == 6 && in_sight(c) == 0)
        push_kind(c, NUMBER);
    if (in_sight(c) != 1 && !(PEER_WRONG == 10 && in_sight(c) == 2))
        return NOT_ONE_CELL;
    c->hidden = c->hidden_before[--c->groups];
    return NONE;
}

static const name *find_name(const checker *c, const uint8_t *bytes, size_t len)
{
    for (size_t i = 0; i < c->names_len; i++)
        if (same_bytes(c->names[i].bytes, c->names[i].len, bytes, len))
            return &c->names[i];
    return NULL;
}

/* The name gets the kind of the top cell: of a count, that of a plain number. */
static enum refusal define(checker *c, const uint8_t *bytes, size_t len, bool constant)
{
    if (in_reach(c) == 0)
        return TOO_FEW_CELLS;
    if (find_name(c, bytes, len) != NULL)
        return NAME_DEFINED;
    if (c->names_len == NAME_LIMIT)
        return TOO_MANY_NAMES;
    c->height--;
    c->names[c->names_len++] = (name){.bytes = bytes, .len = len, .kind = c->cells[c->height].kind, .constant = constant};
    return NONE;
}

static enum refusal get(checker *c, const uint8_t *bytes, size_t len)
{
    const name *const found = find_name(c, bytes, len);

    return found == NULL ? NAME_NOT_DEFINED : push_kind(c, found->kind);
}

static enum refusal put(checker *c, const uint8_t *bytes, size_t len)
{
    const name *const found = find_name(c, bytes, len);

    if (in_reach(c) == 0 && PEER_WRONG != 15)
        return TOO_FEW_CELLS;
    if (found == NULL)
        return NAME_NOT_DEFINED;
    if (found->constant && PEER_WRONG != 11)
        return PUT_TO_CONSTANT;
    return take(c, found->kind);
}

static const vogieburn_operation *find_operation(const checker *c, const uint8_t *bytes, size_t len)
{
    for (size_t i = 0; i < c->operations; i++)
        if (same_bytes(c->table[i].name, c->table[i].name_len, bytes, len))
            return &c->table[i];
    return NULL;
}

/* Items are taken in order, and only then the kinds given are pushed. */
static enum refusal operate(checker *c, const vogieburn_operation *o)
{
    enum refusal refused = NONE;

    if (o == NULL)
        return OPERATION_UNKNOWN;
    if (PEER_WRONG == 17 && c->height + o->gives_len > CELL_LIMIT)
        return TOO_MANY_CELLS;
    for (size_t i = 0; refused == NONE && i < o->takes_len; i++)
        refused = o->takes[i] < KINDS ? take(c, o->takes[i]) : take_array(c, o->takes[i] - KINDS);
    for (size_t i = 0; refused == NONE && i < o->gives_len; i++)
        refused = push_kind(c, o->gives[i]);
    return refused;
}

static enum refusal handle(checker *c, const vogieburn_entity *e, const uint8_t *text)
{
    switch (e->kind) {
    case VOGIEBURN_BEGIN_GROUP: return begin_group(c);
    case VOGIEBURN_END_GROUP: return end_group(c);
    case VOGIEBURN_ARRAY: return push(c, (cell){.kind = NUMBER, .is_count = true, .count = e->count});
    case VOGIEBURN_NUMBER: return push_kind(c, NUMBER);
    case VOGIEBURN_QUOTED:
    case VOGIEBURN_CURLY: return push_kind(c, STRING);
    case VOGIEBURN_DEFINE_VARIABLE: return define(c, text, e->text_len, false);
    case VOGIEBURN_DEFINE_CONSTANT: return define(c, text, e->text_len, true);
    case VOGIEBURN_GET: return get(c, text, e->text_len);
    case VOGIEBURN_PUT: return put(c, text, e->text_len);
    case VOGIEBURN_OPERATION: return operate(c, find_operation(c, text, e->text_len));
    default: return NONE; /* metacommands and the end */
    }
}

/* ---- the call */

/* Goes over what was read, entity by entity. The answer is that of a reading that succeeded, until an entity is refused. */
static vogieburn_answer check_entities(checker *c, vogieburn_answer a, const vogieburn_entity *list, const uint8_t *text)
{
    for (const vogieburn_entity *e = list; a.steps < a.entities; e++) {
        const enum refusal refused = handle(c, e, text + e->text_at);

        if (refused != NONE) {
            a.number = refused;
            a.place = e->place;
            a.consumed = 0;
            return a;
        }
        a.steps++;
    }
    a.cells = c->height;
    return a;
}

vogieburn_answer peer_check(const uint8_t *draft, size_t draft_len, uint32_t *list, size_t list_len, uint8_t *text,
                            size_t text_len, const uint8_t *table, size_t table_len)
{
    const vogieburn_operation *const operations = (const vogieburn_operation *)table;
    const bool sound = sound_table(operations, table_len);
    vogieburn_answer a;
    checker c;

    if (!sound && !(PEER_WRONG == 13 && draft_len > VOGIEBURN_DRAFT_LIMIT))
        return (vogieburn_answer){.number = TABLE_BREAKS_ITS_RULES};
    a = peer_read(draft, draft_len, list, list_len, text, text_len);
    if (a.number != 0)
        return a;
    c.table = operations;
    c.operations = table_len / sizeof *operations;
    c.height = c.hidden = c.groups = c.names_len = 0;
    return check_entities(&c, a, (const vogieburn_entity *)list, text_len > 0 ? text : (const uint8_t *)"");
}
