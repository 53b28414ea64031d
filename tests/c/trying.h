/* Tables that are tried one after the other, and the lines that tell of them. */
#ifndef C_TRYING_H
#define C_TRYING_H

#include <stdbool.h>

#include "vogieburn.h"

/* The draft `NAME |;`. */
typedef struct {
    uint8_t bytes[VOGIEBURN_OPERATION_NAME_LIMIT + 3];
    size_t name_len;
} named;

named draft_of(const void *name, size_t name_len);

/* Checks the draft under a table, as calls.h says. The answer has to be that of sound.h: 20 under a table that is not sound, and
 * else what one operation does where no cell is there. */
void try_table(const named *d, const void *table, size_t table_len);

/* Counts something else that was tried. Behind one that does not hold no table is tried until the next line. */
void tried(bool is_sound, bool held);

/* Ends what is told in one line, and says what it was. */
void told(const char *what);

/* Whether a line failed so far. */
bool some_failed(void);

/* Counts the lines: 'N passed, M failed'. Answers whether none failed. */
bool told_all(void);

/* The tests of the header's way to make an operation. */
void try_making(void);

#endif
