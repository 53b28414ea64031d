/* A draft that is being made, and the pieces that it is made of. */
#ifndef TRIAL_DRAFT_H
#define TRIAL_DRAFT_H

#include <stddef.h>
#include <stdint.h>
#include <string.h>

/* Room for drafts well over the limit of 16,384 bytes. What is put past it is left out. */
enum { DRAFT_ROOM = 20480 };

typedef struct {
    size_t len;
    uint8_t bytes[DRAFT_ROOM];
} draft;

/* Bytes with their number, since a nul may be among them. */
typedef struct {
    const char *bytes;
    size_t len;
} piece;

#define PIECE(literal) {literal, sizeof literal - 1}
#define COUNT(array) (sizeof array / sizeof *array)

static inline void put_byte(draft *d, unsigned byte)
{
    if (d->len < DRAFT_ROOM)
        d->bytes[d->len++] = (uint8_t)byte;
}

static inline void put_many(draft *d, unsigned byte, size_t count)
{
    for (; count > 0; count--)
        put_byte(d, byte);
}

static inline void put_bytes(draft *d, const void *bytes, size_t len)
{
    if (len > DRAFT_ROOM - d->len)
        len = DRAFT_ROOM - d->len;
    memcpy(d->bytes + d->len, bytes, len);
    d->len += len;
}

static inline void put(draft *d, piece p)
{
    put_bytes(d, p.bytes, p.len);
}

/* A character in UTF-8. A surrogate is put in three bytes, as if it were a character. */
static inline void put_character(draft *d, uint32_t c)
{
    if (c < 0x80) {
        put_byte(d, c);
    } else if (c < 0x800) {
        put_byte(d, 0xC0 | c >> 6);
        put_byte(d, 0x80 | (c & 0x3F));
    } else if (c < 0x10000) {
        put_byte(d, 0xE0 | c >> 12);
        put_byte(d, 0x80 | (c >> 6 & 0x3F));
        put_byte(d, 0x80 | (c & 0x3F));
    } else {
        put_byte(d, 0xF0 | c >> 18);
        put_byte(d, 0x80 | (c >> 12 & 0x3F));
        put_byte(d, 0x80 | (c >> 6 & 0x3F));
        put_byte(d, 0x80 | (c & 0x3F));
    }
}

/* A name of so many bytes, which are alike but for the one at `at`. */
static inline void put_marked(draft *d, size_t len, size_t at, unsigned mark)
{
    put_many(d, 'm', at);
    put_byte(d, mark);
    put_many(d, 'm', len - at - 1);
}

/* What stands first in a draft, what comes again and again, and what stands last. */
typedef struct {
    piece before, again, behind;
} filling;

/* A draft of exactly `len` bytes, if what comes first and last fits; blanks make up for what is missing. */
static inline void fill(draft *d, const filling *f, size_t len)
{
    d->len = 0;
    put(d, f->before);
    while (d->len + f->again.len + f->behind.len <= len)
        put(d, f->again);
    while (d->len + f->behind.len < len)
        put_byte(d, ' ');
    put(d, f->behind);
}

#endif
