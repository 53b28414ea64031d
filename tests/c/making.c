/* vogieburn_operation_make against its rules, and against docs/LAYOUT.md. */
#include <stdbool.h>
#include <stdio.h>
#include <string.h>

#include "lent.h"
#include "trying.h"

enum {
    BYTES = VOGIEBURN_OPERATION_BYTES,
    WAS = 0xA5 /* what every byte of an operation is before it is made */
};

/* What an operation is made of. */
typedef struct {
    const uint8_t *name;
    size_t name_len;
    const uint8_t *takes;
    size_t takes_len;
    const uint8_t *gives;
    size_t gives_len;
} parts;

/* More bytes than any part may have: a name, and items and kinds that keep their bounds. */
static uint8_t letters[300], items[32], kinds[16];

static int made(vogieburn_operation *o, const parts *p)
{
    memset(o, WAS, sizeof *o);
    return vogieburn_operation_make(o, p->name, p->name_len, p->takes, p->takes_len, p->gives, p->gives_len);
}

/* A length, and the bytes behind it. */
static void lay_out(uint8_t *bytes, const uint8_t *part, size_t len)
{
    bytes[0] = (uint8_t)len;
    for (size_t i = 0; i < len; i++)
        bytes[1 + i] = part[i];
}

/* The operation is made as the layout says, and the check takes it. */
static void try_kept(const parts *p)
{
    const named d = draft_of(p->name, p->name_len);
    uint8_t wanted[BYTES] = {0};
    vogieburn_operation o;

    now_held("a name of %zu, %zu items, %zu kinds", p->name_len, p->takes_len, p->gives_len);
    lay_out(wanted, p->name, p->name_len);
    lay_out(wanted + 256, p->takes, p->takes_len);
    lay_out(wanted + 265, p->gives, p->gives_len);
    tried(true, (made(&o, p) == 1 && memcmp(&o, wanted, BYTES) == 0) || wrong("not made, or otherwise"));
    try_table(&d, &o, BYTES);
}

/* The operation is not made, and is as it was. */
static void try_broken(const char *rule, const parts *p)
{
    uint8_t was[BYTES];
    vogieburn_operation o;

    now_held("%s", rule);
    memset(was, WAS, sizeof was);
    tried(false, (made(&o, p) == 0 && memcmp(&o, was, BYTES) == 0) || wrong("made, or touched"));
}

static void try_lengths(void)
{
    static const size_t name_lens[] = {1, 2, 8, 254, 255};

    for (size_t i = 0; i < sizeof name_lens / sizeof *name_lens; i++)
        for (size_t takes_len = 0; takes_len <= 8; takes_len++)
            for (size_t gives_len = 0; gives_len <= 8; gives_len++) {
                const parts p = {letters, name_lens[i], takes_len > 0 ? items : NULL, takes_len, gives_len > 0 ? kinds : NULL,
                                 gives_len};

                try_kept(&p);
            }
    told("operations made of every number of items and kinds");
}

/* Each byte, at each place among eight items and among eight kinds. */
static void try_each_byte(void)
{
    for (unsigned byte = 0; byte < 256; byte++)
        for (size_t at = 0; at < 8; at++) {
            uint8_t some[8] = {0};
            const parts as_items = {letters, 1, some, 8, kinds, 1}, as_kinds = {letters, 1, items, 1, some, 8};

            some[at] = (uint8_t)byte;
            if (byte < 32)
                try_kept(&as_items);
            else
                try_broken("an item of 32 or more", &as_items);
            if (byte < 16)
                try_kept(&as_kinds);
            else
                try_broken("a kind of 16 or more", &as_kinds);
        }
    told("operations made of each byte");
}

static void try_broken_lengths(void)
{
    static const size_t more[] = {9, 10, 16};
    static const parts no_name = {letters, 0, items, 1, kinds, 1}, null_name = {NULL, 0, NULL, 0, NULL, 0};

    try_broken("no name", &no_name);
    try_broken("no name, and null pointers", &null_name);
    for (size_t len = 256; len <= sizeof letters; len++) {
        const parts p = {letters, len, items, 1, kinds, 1};

        try_broken("a name over 255 bytes", &p);
    }
    for (size_t i = 0; i < sizeof more / sizeof *more; i++) {
        const parts taking = {letters, 1, items, more[i], kinds, 1}, giving = {letters, 1, items, 1, kinds, more[i]};

        try_broken("over 8 items", &taking);
        try_broken("over 8 kinds", &giving);
    }
    told("operations not made for their lengths");
}

void try_making(void)
{
    for (size_t i = 0; i < sizeof letters; i++)
        letters[i] = (uint8_t)('a' + i % 26);
    for (size_t i = 0; i < sizeof items; i++)
        items[i] = (uint8_t)(31 - i);
    for (size_t i = 0; i < sizeof kinds; i++)
        kinds[i] = (uint8_t)(15 - i);
    try_lengths();
    try_each_byte();
    try_broken_lengths();
}
