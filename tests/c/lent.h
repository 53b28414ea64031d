/* What a call is lent: buffers between guards, each with what it is to be afterwards. */
#ifndef C_LENT_H
#define C_LENT_H

#include <stdbool.h>
#include <stddef.h>
#include <stdint.h>

/* Elements before and behind each buffer. */
enum { GUARD = 32 };

typedef struct {
    const char *name;
    size_t size; /* bytes to an element */
    size_t len;  /* elements, without the guards */
    uint8_t *got, *wanted;
} buffer;

/* Says what is being held; wrong() names it. */
void now_held(const char *format, ...);

/* Names what is being held and says what is wrong with it. Answers false. */
bool wrong(const char *format, ...);

/* Memory, of which there has to be enough. */
void *room(size_t size);

/* A buffer of a pattern, which is to stay as it is. Another seed is another byte at every place, so that no wrong write passes two
 * calls by writing what is there. */
buffer lend(const char *name, size_t size, size_t len, uint32_t seed);

/* A buffer of these bytes, which are to stay. */
buffer lend_bytes(const char *name, const uint8_t *bytes, size_t len, uint32_t seed);

/* What the library is handed; with `null`, a null pointer where the length is 0. */
uint8_t *start(const buffer *b, bool null);

/* The buffer's first bytes are to be these afterwards. */
void is_to_hold(buffer *b, const void *bytes, size_t size);

/* Changes an element; -1 and `len` are the nearest ones of the guards. */
void flip(buffer *b, ptrdiff_t i);

/* Whether the buffer is what it is to be, with its guards. */
bool same_buffer(const buffer *b);

void take_back(buffer *b);

#endif
