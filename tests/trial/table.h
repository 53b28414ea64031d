/* A table of operations that is being made (docs/LAYOUT.md). */
#ifndef TRIAL_TABLE_H
#define TRIAL_TABLE_H

#include <stddef.h>
#include <stdint.h>
#include <string.h>

#include "draft.h"
#include "vogieburn.h"

_Static_assert(sizeof(vogieburn_operation) == 274, "operations have no gaps");

/* Kinds, of which there are so many. An item of KINDS more is an array of the kind. */
enum { NUMBER = 0, STRING = 1, KINDS = 16 };

/* The most operations that a sound table has, and room for some more. What is put past it is left out. */
enum { OPERATIONS = 256, OPERATION_ROOM = OPERATIONS + 4 };

typedef struct {
    size_t len; /* bytes, which need not be whole operations */
    union {
        uint8_t bytes[OPERATION_ROOM * sizeof(vogieburn_operation)];
        vogieburn_operation operations[OPERATION_ROOM];
    };
} table;

/* Whole operations. */
static inline size_t operations_of(const table *t)
{
    return t->len / sizeof *t->operations;
}

/* A name, items and kinds; a byte is an item or a kind. */
typedef struct {
    piece name, takes, gives;
} operation;

/* Puts an operation without a name, items and kinds behind the others, and answers where it stands. */
static inline vogieburn_operation *put_empty(table *t)
{
    vogieburn_operation *const o = &t->operations[operations_of(t) < OPERATION_ROOM ? operations_of(t) : OPERATION_ROOM - 1];

    memset(o, 0, sizeof *o);
    t->len = (size_t)(o + 1 - t->operations) * sizeof *o;
    return o;
}

static inline void put_operation(table *t, operation from)
{
    vogieburn_operation *const o = put_empty(t);

    o->name_len = (uint8_t)from.name.len;
    memcpy(o->name, from.name.bytes, from.name.len);
    o->takes_len = (uint8_t)from.takes.len;
    memcpy(o->takes, from.takes.bytes, from.takes.len);
    o->gives_len = (uint8_t)from.gives.len;
    memcpy(o->gives, from.gives.bytes, from.gives.len);
}

static inline void put_operations(table *t, const operation *from, size_t count)
{
    for (; count > 0; count--)
        put_operation(t, *from++);
}

#endif
