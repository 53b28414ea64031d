#include "trying.h"

#include <stdio.h>
#include <stdlib.h>
#include <string.h>

#include "calls.h"
#include "sound.h"

/* Entities in the list. */
enum { ROOM = 4 };

/* What was tried since the last line; and the lines. */
static size_t many, sound;
static bool all_held = true;
static size_t passed, failed;

void tried(bool is_sound, bool held)
{
    many++;
    sound += is_sound;
    all_held = all_held && held;
}

void told(const char *what)
{
    printf("%s: %s: %zu, %zu of them sound\n", all_held ? "ok" : "FAILED", what, many, sound);
    if (all_held)
        passed++;
    else
        failed++;
    many = sound = 0;
    all_held = true;
}

bool some_failed(void)
{
    return failed > 0;
}

bool told_all(void)
{
    printf("%zu passed, %zu failed\n", passed, failed);
    return !some_failed();
}

named draft_of(const void *name, size_t name_len)
{
    named d = {.name_len = name_len};

    memcpy(d.bytes, name, name_len);
    memcpy(d.bytes + name_len, " |;", 3);
    return d;
}

/* What the check of the draft answers. */
static vogieburn_answer answer_of(const named *d, const uint8_t *table, size_t table_len)
{
    vogieburn_answer a = {.entities = 2, .text = d->name_len};
    const uint8_t *operation;

    if (!table_is_sound(table, table_len))
        return (vogieburn_answer){.number = 20};
    operation = operation_named(table, table_len, d->bytes, d->name_len);
    if (operation == NULL) {
        a.number = 21;
    } else if (operation[256] > 0) {
        a.number = 22;
    } else {
        a.consumed = d->name_len + 3;
        a.steps = 2;
        a.cells = operation[265];
    }
    return a;
}

void try_table(const named *d, const void *table, size_t table_len)
{
    vector v = {.checks = true,
                .draft = d->bytes,
                .draft_len = d->name_len + 3,
                .table = table,
                .table_len = table_len,
                .list_room = ROOM,
                .text_room = d->name_len + 1,
                .answer = answer_of(d, table, table_len)};

    if (!all_held)
        return;
    hold_reading(&v);
    tried(v.answer.number != 20, holds(&v));
    free(v.rows);
    free(v.held);
}
