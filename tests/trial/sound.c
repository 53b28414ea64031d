#include "draft.h"
#include "parts.h"
#include "tables.h"
#include "tally.h"

static table t;
static uint64_t drafts;

/* ---- tables that break a rule, and those that nearly do */

/* A draft that passes under a sound table, one that is not read to its end, and one that is too long. */
static void check_under(void)
{
    static const filling fillings[] = {
        {PIECE("1 ?a =a"), PIECE(" "), PIECE("|;")}, {PIECE("("), PIECE(" "), PIECE("|;")}, {PIECE("1"), PIECE(" "), PIECE("|;")}};
    static const size_t lengths[] = {10, 5, VOGIEBURN_DRAFT_LIMIT + 1};
    static draft made[COUNT(fillings)];

    begin_draft(drafts++);
    for (size_t i = 0; i < COUNT(made); i++) {
        if (made[i].len == 0)
            fill(&made[i], &fillings[i], lengths[i]);
        hold(&made[i], &t, 5 * VOGIEBURN_NUMBERS, 5);
    }
}

/* Operations whose names all differ: two bytes of their own between others that they share. */
static void put_distinct(size_t count, piece before, piece behind)
{
    for (size_t i = 0; i < count; i++) {
        vogieburn_operation *const o = put_empty(&t);

        memcpy(o->name, before.bytes, before.len);
        o->name[before.len] = (uint8_t)('a' + i % 16);
        o->name[before.len + 1] = (uint8_t)('a' + i / 16);
        memcpy(o->name + before.len + 2, behind.bytes, behind.len);
        o->name_len = (uint8_t)(before.len + 2 + behind.len);
    }
}

static void make_sound(size_t count)
{
    t.len = 0;
    put_distinct(count, (piece)PIECE("warp"), (piece)PIECE("weft"));
}

static void try_lengths(void)
{
    make_sound(3);
    for (t.len = 0; t.len < 3 * sizeof *t.operations + 3; t.len++)
        check_under();
    for (size_t count = OPERATIONS - 2; count <= OPERATIONS + 2; count++) {
        make_sound(count);
        check_under();
    }
}

/* Each byte of two operations, as other bytes that the rules tell apart. */
static void try_each_byte(void)
{
    static const operation two[] = {
        {PIECE("ab"), PIECE("\0\x1F\x10"), PIECE("\xF\1")},
        {PIECE("a"), PIECE("\1\2\3\4\5\6\7\x8"), PIECE("\1\2\3\4\5\6\7\x8")},
    };
    static const uint8_t values[] = {0, 1, 2, 7, 8, 9, 15, 16, 31, 32, 'a', 'b', 254, 255};

    t.len = 0;
    put_operations(&t, two, COUNT(two));
    for (size_t i = 0; i < t.len; i++) {
        const uint8_t byte = t.bytes[i];

        for (size_t k = 0; k < COUNT(values); k++) {
            t.bytes[i] = values[k];
            check_under();
        }
        t.bytes[i] = byte;
    }
}

static void try_each_rule(void)
{
    static const size_t counts[] = {1, 2, 7, OPERATIONS};
    lots l = {0};

    for (size_t i = 0; i < COUNT(counts); i++)
        for (int broken = 0; broken < RULES; broken++)
            for (size_t times = 0; times < 16; times++) {
                make_sound(counts[i]);
                break_rule(&l, &t, (enum rule)broken);
                check_under();
            }
}

/* One name twice, at every distance. */
static void try_each_distance(void)
{
    for (size_t i = 1; i < OPERATIONS; i++) {
        make_sound(OPERATIONS);
        t.operations[i] = t.operations[0];
        check_under();
        make_sound(OPERATIONS);
        t.operations[OPERATIONS - 1 - i] = t.operations[OPERATIONS - 1];
        check_under();
    }
}

/* ---- names of operations */

/* The first of two operations gives a kind, which the second takes: whoever takes another in their place is found by that. */
static void give_and_take(void)
{
    for (size_t i = 0; i < operations_of(&t); i++) {
        vogieburn_operation *const o = &t.operations[i];
        uint8_t *const kinds = i % 2 == 0 ? o->gives : o->takes;

        o->gives_len = i % 2 == 0;
        o->takes_len = i % 2;
        kinds[0] = (uint8_t)(i / 2 % KINDS);
    }
}

/* Names all operations in order, as many of them in a draft as it has room for. Every `wrong`th name loses its last byte. */
static void name_all(size_t wrong)
{
    static draft d;
    size_t i = 0;

    give_and_take();
    while (i < operations_of(&t)) {
        for (d.len = 0; i < operations_of(&t) && (i % 2 == 1 || d.len + 2 * 256 < VOGIEBURN_DRAFT_LIMIT); i++) {
            put_bytes(&d, t.operations[i].name, t.operations[i].name_len - (i % wrong == wrong - 1));
            put_byte(&d, ' ');
        }
        put(&d, (piece)PIECE("|;"));
        begin_draft(drafts++);
        hold(&d, &t, 2 * OPERATIONS * VOGIEBURN_NUMBERS, d.len);
    }
}

static void put_marked_name(size_t len, size_t at, unsigned mark)
{
    static draft name;

    name.len = 0;
    put_marked(&name, len, at, mark);
    put_operation(&t, (operation){{(const char *)name.bytes, len}, PIECE(""), PIECE("")});
}

static void try_names(void)
{
    static const piece shared[] = {PIECE(""), PIECE("b"), PIECE("tabby-ground-with-a-supplementary-weft"),
                                   PIECE("|tabby-ground-with-a-supplementary-weft-of-gold-thread-on-a-core-of-silk")};

    for (size_t wrong = 50; wrong <= 2 * OPERATIONS; wrong += wrong)
        for (size_t i = 0; i < COUNT(shared); i++)
            for (size_t k = 0; k < COUNT(shared); k++) {
                t.len = 0;
                put_distinct(OPERATIONS, shared[i], shared[k]);
                name_all(wrong);
            }
    t.len = 0;
    for (size_t len = 1; len <= 255; len++)
        put_marked_name(len, 0, 'm');
    name_all(OPERATIONS);
}

/* Two names that differ in one byte only. */
static void try_one_byte(void)
{
    for (size_t len = 1; len <= 255; len++)
        for (size_t at = 0; at < len; at += len % 16 == 15 ? 1 : 1 + len / 8) {
            t.len = 0;
            put_marked_name(len, at, 'a');
            put_marked_name(len, at, 'b');
            name_all(OPERATIONS);
        }
}

void try_tables(void)
{
    drafts = 0;
    begin_part("tables");
    try_lengths();
    try_each_byte();
    try_each_rule();
    try_each_distance();
    try_names();
    try_one_byte();
}
