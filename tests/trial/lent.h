/* Memory that a call is lent. On one side of it stands a page that may not be touched: whoever reads or writes there is stopped.
 * On the other side stand some bytes, its guard, that are looked at afterwards. */
#ifndef TRIAL_LENT_H
#define TRIAL_LENT_H

#include <stdbool.h>
#include <stddef.h>
#include <stdint.h>

/* Bytes of a guard. */
enum { GUARD = 32 };

/* On which side the page stands. */
enum page { PAGE_BEHIND, PAGE_BEFORE };

typedef struct {
    const char *name;
    size_t most;          /* bytes that can be lent */
    uint8_t *first, *end; /* all of the memory between two such pages: its first byte, and the byte after its last */
    uint8_t *bytes;       /* what is lent of it */
    size_t len;
    uint8_t *guard;
    const uint8_t *was, *guard_was; /* what was lent, and what its guard had */
} buffer;

/* Gets memory for up to `most` bytes. */
void make_buffer(buffer *b, const char *name, size_t most);

/* Lends `len` bytes of it, with these contents and this guard. */
void lend(buffer *b, enum page page, const uint8_t *was, size_t len, const uint8_t *guard_was);

/* The first byte that is not as it was lent, of those behind the `held` first ones and of the guard; null if there is none. */
const uint8_t *touched(const buffer *b, size_t held);

/* Whether a byte lies in the buffer's memory, or in the pages beside it. */
bool lies_at(const buffer *b, const void *byte);

/* Where such a byte lies, in words. */
const char *where(const buffer *b, const void *byte);

#endif
