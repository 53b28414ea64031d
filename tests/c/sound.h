/* What docs/LAYOUT.md says of a table, as plain code that looks at every byte and every pair of names. */
#ifndef C_SOUND_H
#define C_SOUND_H

#include <stdbool.h>

#include "vogieburn.h"

/* The rules of a table. */
enum rule {
    RULE_NONE,
    RULE_WHOLE,        /* 274 bytes to an operation */
    RULE_OPERATIONS,   /* at most 256 of them */
    RULE_NAME,         /* a name has a byte */
    RULE_BEHIND_NAME,  /* zeros behind it */
    RULE_TAKES,        /* at most 8 items */
    RULE_ITEMS,        /* each 0 to 31 */
    RULE_BEHIND_ITEMS, /* zeros behind them */
    RULE_GIVES,        /* at most 8 kinds */
    RULE_KINDS,        /* each 0 to 15 */
    RULE_BEHIND_KINDS, /* zeros behind them */
    RULE_DISTINCT      /* no two names are equal */
};

/* From now on this rule is no rule, so that a table which breaks it alone is taken for sound. */
void leave_out(enum rule which);

bool table_is_sound(const uint8_t *table, size_t table_len);

/* The bytes of the operation of this name in a sound table, or NULL. */
const uint8_t *operation_named(const uint8_t *table, size_t table_len, const void *name, size_t name_len);

#endif
