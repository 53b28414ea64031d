#include "samples.h"

#include <stdio.h>
#include <string.h>

#include "grammar.h"
#include "passing.h"
#include "tables.h"

enum { SEED = 20260101 };

static draft d;
static table t;

static void keep_draft(sample *s)
{
    s->draft_len = d.len;
    memcpy(s->draft, d.bytes, d.len);
}

void sample_reading(uint64_t number, sample *s)
{
    lots l = lots_for(SEED, number / 2);

    make_draft(&l, &d);
    if (number % 2 == 1)
        damage_draft(&l, &d);
    keep_draft(s);
}

/* ---- a table's text */

static void put_text(sample *s, const void *bytes, size_t len)
{
    if (len > SAMPLE_TEXT - s->text_len)
        len = SAMPLE_TEXT - s->text_len;
    memcpy(s->text + s->text_len, bytes, len);
    s->text_len += len;
}

static void put_words(sample *s, const char *words)
{
    put_text(s, words, strlen(words));
}

/* Blanks where there may be none, and where there has to be one. */
static void put_blanks(lots *l, sample *s, size_t least)
{
    for (size_t n = least + (one_in(l, 6) ? below(l, 4) : 0); n > 0; n--)
        put_words(s, one_in(l, 4) ? "\t" : " ");
}

static void put_end(lots *l, sample *s)
{
    put_blanks(l, s, 0);
    if (one_in(l, 6))
        put_words(s, "# bind: -> \xC3\xA9\xFF");
    put_words(s, one_in(l, 4) ? "\r\n" : "\n");
    if (one_in(l, 8))
        put_words(s, one_in(l, 2) ? "\n" : "  # a remark\n");
}

/* A kind by its number or by its name; the house's kinds are named by a letter. */
static void put_kind(lots *l, sample *s, unsigned kind, bool named)
{
    const char name[] = {(char)('a' + kind), 'x', '\0'};
    char digits[4];

    snprintf(digits, sizeof digits, "%u", kind);
    if (kind < 2 && one_in(l, 2))
        put_words(s, kind == 0 ? "number" : "string");
    else
        put_words(s, kind >= 2 && named && one_in(l, 2) ? name : digits);
}

static void put_item(lots *l, sample *s, unsigned item, bool named)
{
    if (item < KINDS) {
        put_kind(l, s, item, named);
        return;
    }
    put_words(s, "[");
    put_blanks(l, s, 0);
    put_kind(l, s, item - KINDS, named);
    put_blanks(l, s, 0);
    put_words(s, "]");
}

/* Items or kinds, with a blank before each. */
static void put_items(lots *l, sample *s, const uint8_t *items, size_t count, bool named)
{
    for (size_t i = 0; i < count; i++) {
        put_blanks(l, s, 1);
        put_item(l, s, items[i], named);
    }
    put_blanks(l, s, 1);
}

static void put_line(lots *l, sample *s, const vogieburn_operation *o, bool named)
{
    put_blanks(l, s, 0);
    put_text(s, o->name, o->name_len);
    put_words(s, ":");
    put_items(l, s, o->takes, o->takes_len, named);
    put_words(s, "->");
    put_items(l, s, o->gives, o->gives_len, named);
    put_end(l, s);
}

/* Now and then the text begins with a byte order mark, has names for the kinds and has no line end at its end. */
static void write_text(lots *l, sample *s)
{
    const bool named = one_in(l, 2);

    s->text_len = 0;
    if (one_in(l, 8))
        put_words(s, "\xEF\xBB\xBF");
    put_end(l, s);
    if (named) {
        put_words(s, "kinds: cx dx ex fx gx hx ix jx kx lx mx nx ox px");
        put_end(l, s);
    }
    for (size_t i = 0; i < s->count; i++)
        put_line(l, s, &s->operations[i], named);
    if (one_in(l, 8))
        put_words(s, "# no line end behind this");
}

static bool stands_twice(const vogieburn_operation *o)
{
    size_t same = 0;

    for (size_t i = 0; i < operations_of(&t); i++)
        same += t.operations[i].name_len == o->name_len && memcmp(t.operations[i].name, o->name, sizeof o->name) == 0;
    return same > 1;
}

/* Any visible byte becomes the first of one operation's name, so that some names are those of no operation in a draft. A # would make
 * a remark of the line. */
static void mark_name(lots *l)
{
    vogieburn_operation *const o = &t.operations[below(l, operations_of(&t))];
    const uint8_t was = o->name[0];

    o->name[0] = (uint8_t)('!' + below(l, '~' - '!' + 1));
    if (o->name[0] == '#' || stands_twice(o))
        o->name[0] = was;
}

void sample_check(uint64_t number, sample *s)
{
    lots l = lots_for(SEED + 1, number);

    draw_table(&l, &t);
    if (t.len > 0 && one_in(&l, 2))
        mark_name(&l);
    make_passing(&l, &t, &d);
    if (one_in(&l, 16))
        damage_draft(&l, &d);
    keep_draft(s);
    s->count = operations_of(&t);
    memcpy(s->operations, t.operations, t.len);
    write_text(&l, s);
}

bool sample_damage(uint64_t number, sample *s)
{
    lots l = lots_for(SEED + 2, number);

    if (s->text_len > DRAFT_ROOM)
        return false;
    d.len = 0;
    put_bytes(&d, s->text, s->text_len);
    damage_draft(&l, &d);
    s->text_len = d.len;
    memcpy(s->text, d.bytes, d.len);
    return true;
}
