/* Holds the library, called from C, against tables that are damaged or odd, and the header's way to make an operation against its
 * rules.
 *
 *     tables [--without RULE]
 *
 * Every table is tried as trying.h says. Each line says what was tried; the last line counts: 'N passed, M failed'.
 *
 * With --without a rule of sound.h is left out, so that some tables have to fail; behind the first line that does, nothing more is tried.
 */
#include <stdbool.h>
#include <stdio.h>
#include <stdlib.h>
#include <string.h>

#include "lent.h"
#include "sound.h"
#include "trying.h"

enum {
    BYTES = VOGIEBURN_OPERATION_BYTES,
    MOST = VOGIEBURN_OPERATIONS_LIMIT,
    LENGTHS = 600 /* tables of up to so many bytes are tried */
};

/* ---- tables */

/* The name of an operation, of `len` bytes: letters that tell `i`, and more of them. */
static void name_of(size_t i, uint8_t *name, size_t len)
{
    for (size_t at = 0; at < len; at++) {
        name[at] = (uint8_t)('a' + i % 16);
        i /= 16;
    }
}

/* An operation with a name of `name_len` bytes that tells `i`. */
static vogieburn_operation operation_of(size_t i, size_t name_len, size_t takes_len, size_t gives_len)
{
    static const uint8_t takes[] = {0, 15, 16, 31, 1, 17, 2, 8}, gives[] = {15, 0, 1, 14, 2, 7, 8, 3};
    uint8_t name[VOGIEBURN_OPERATION_NAME_LIMIT];
    vogieburn_operation o;

    name_of(i, name, name_len);
    if (!vogieburn_operation_make(&o, name, name_len, takes, takes_len, gives, gives_len))
        tried(true, wrong("a sound operation was not made"));
    return o;
}

/* So many operations, each with another name. */
static vogieburn_operation *operations(size_t len)
{
    vogieburn_operation *table = room(len * sizeof *table);

    for (size_t i = 0; i < len; i++)
        table[i] = operation_of(i, 3 + i % 7, i % 3 == 0 ? 0 : i % 9, i % 8 + 1);
    return table;
}

static void try_lengths(const char *what, const void *bytes)
{
    const named d = draft_of("baa", 3);

    for (size_t len = 0; len <= LENGTHS; len++) {
        now_held("%s, %zu bytes", what, len);
        try_table(&d, bytes, len);
    }
    told(what);
}

static void try_every_length(void)
{
    vogieburn_operation *table = operations(1 + LENGTHS / BYTES);
    uint8_t bytes[LENGTHS];

    try_lengths("every length of a sound table's bytes", table);
    memset(bytes, 0, sizeof bytes);
    try_lengths("every length of zeros", bytes);
    memset(bytes, 0xFF, sizeof bytes);
    try_lengths("every length of bytes FF", bytes);
    free(table);
}

/* Each byte of a table has several others in its place, one after the other. */
static void try_each_byte(const char *what, vogieburn_operation *table, size_t len)
{
    static const uint8_t others[] = {0, 1, 7, 8, 9, 0x0F, 0x10, 0x1F, 0x20, 0x7F, 0x80, 0xFE, 0xFF};
    uint8_t *bytes = (uint8_t *)table;

    for (size_t at = 0; at < len * BYTES; at++) {
        const vogieburn_operation *o = &table[at / BYTES];
        const named d = draft_of(o->name, o->name_len);
        const uint8_t was = bytes[at];

        now_held("%s, byte %zu", what, at);
        for (size_t i = 0; i < sizeof others; i++) {
            bytes[at] = others[i];
            try_table(&d, bytes, len * BYTES);
        }
        for (int more = -1; more <= 1; more++) {
            bytes[at] = (uint8_t)(was + more);
            try_table(&d, bytes, len * BYTES);
        }
        bytes[at] = was;
    }
    told(what);
}

/* Names of one byte and of 255, no items and eight, and two names that differ by one in one byte. */
static void try_changed_bytes(void)
{
    vogieburn_operation table[] = {operation_of(1, 4, 1, 1),   operation_of(2, 1, 0, 0), operation_of(3, 255, 8, 8),
                                   operation_of(4, 254, 0, 8), operation_of(5, 9, 8, 0), operation_of(6, 9, 3, 2),
                                   operation_of(7, 12, 0, 5)};

    try_each_byte("each byte of seven operations changed", table, sizeof table / sizeof *table);
}

/* ---- many operations */

static void try_numbers_of_operations(void)
{
    static const size_t lens[] = {1, 2, 255, 256, 257, 258, 300, 512, 513};

    for (size_t i = 0; i < sizeof lens / sizeof *lens; i++) {
        vogieburn_operation *table = operations(lens[i]);
        const vogieburn_operation *first = &table[0], *last = &table[lens[i] - 1];
        const named of_first = draft_of(first->name, first->name_len), of_last = draft_of(last->name, last->name_len);

        now_held("%zu operations", lens[i]);
        try_table(&of_first, table, lens[i] * BYTES);
        try_table(&of_last, table, lens[i] * BYTES);
        free(table);
    }
    told("256 operations, and more");
}

/* One operation of a full table gets the name of another, near it or far from it. */
static void try_equal_names(void)
{
    static const size_t ones[] = {0, 1, 100, 127, 128, 254, 255};
    vogieburn_operation *table = operations(MOST);

    for (size_t i = 0; i < sizeof ones / sizeof *ones; i++)
        for (size_t other = 0; other < MOST; other++) {
            const vogieburn_operation *one = &table[ones[i]], was = table[other];
            const named d = draft_of(one->name, one->name_len);

            now_held("operation %zu with the name of operation %zu", other, ones[i]);
            memcpy(table[other].name, one->name, sizeof one->name);
            table[other].name_len = one->name_len;
            try_table(&d, table, MOST * BYTES);
            table[other] = was;
        }
    told("two equal names among 256");
    free(table);
}

/* An operation that takes and gives nothing. */
static void name_it(vogieburn_operation *o, const uint8_t *name, size_t name_len)
{
    if (!vogieburn_operation_make(o, name, name_len, NULL, 0, NULL, 0))
        tried(true, wrong("a sound operation was not made"));
}

/* A full table of names of `len` bytes that differ in the byte at a place alone, which is every byte in turn. */
static void try_place(vogieburn_operation *table, size_t len, size_t place)
{
    uint8_t name[VOGIEBURN_OPERATION_NAME_LIMIT];
    named d;

    now_held("names of %zu bytes that differ at %zu", len, place);
    memset(name, 'w', len);
    d = draft_of(name, len);
    for (size_t i = 0; i < MOST; i++) {
        name[place] = (uint8_t)i;
        name_it(&table[i], name, len);
    }
    try_table(&d, table, MOST * BYTES);
}

/* Names each of which is the start of the next. */
static void try_starts(vogieburn_operation *table)
{
    uint8_t name[VOGIEBURN_OPERATION_NAME_LIMIT];

    now_held("names that are the start of others");
    memset(name, 'w', sizeof name);
    for (size_t i = 0; i < sizeof name; i++)
        name_it(&table[i], name, sizeof name - i);
    for (size_t len = 1; len <= sizeof name; len++) {
        const named d = draft_of(name, len);

        try_table(&d, table, sizeof name * BYTES);
    }
}

static void try_alike_names(void)
{
    static const size_t lens[] = {1, 2, 3, 4, 7, 8, 9, 15, 16, 17, 254, 255};
    vogieburn_operation *table = room(MOST * sizeof *table);

    for (size_t i = 0; i < sizeof lens / sizeof *lens; i++)
        for (size_t place = 0; place < lens[i]; place++)
            try_place(table, lens[i], place);
    try_starts(table);
    told("names that are alike");
    free(table);
}

/* The draft may lie in the table: both are only read. */
static void try_draft_in_table(void)
{
    vogieburn_operation table[] = {operation_of(1, 1, 0, 1), operation_of(2, 3, 0, 1)};
    vogieburn_entity list[2];
    uint8_t text[1];
    vogieburn_answer a;

    now_held("a draft that lies in the table");
    memcpy(table[1].name, "b|;", 3);
    a = vogieburn_check(table[1].name + 1, 2, (uint32_t *)list, 2 * VOGIEBURN_NUMBERS, text, sizeof text, (const uint8_t *)table,
                        sizeof table);
    tried(true, (a.number == 0 && a.entities == 1 && a.consumed == 2 && a.steps == 1 && a.cells == 0) || wrong("another answer"));
    told("a draft that lies in the table");
}

static void (*const lines[])(void) = {
    try_every_length, try_changed_bytes, try_numbers_of_operations, try_equal_names, try_alike_names, try_draft_in_table, try_making,
};

int main(int argc, char **argv)
{
    const bool without = argc == 3 && strcmp(argv[1], "--without") == 0;

    if (without) {
        leave_out((enum rule)atoi(argv[2]));
    } else if (argc > 1) {
        fputs("usage: tables [--without RULE]\n", stderr);
        return 2;
    }
    for (size_t i = 0; i < sizeof lines / sizeof *lines && !(without && some_failed()); i++)
        lines[i]();
    return told_all() ? 0 : 1;
}
