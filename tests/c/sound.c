#include "sound.h"

#include <string.h>

/* Bytes to an operation. */
enum { OPERATION = 274 };

/* What an operation takes or gives: where its length stands, with room for 8 behind it, the most that each may be, and the rules. */
typedef struct {
    size_t at;
    unsigned most;
    enum rule fits, each, behind;
} part;

static enum rule left_out;

void leave_out(enum rule which)
{
    left_out = which;
}

/* Whether a rule holds, or is left out. */
static bool kept(enum rule which, bool holds)
{
    return holds || which == left_out;
}

/* Whether the bytes from one to before another are at most `most`. */
static bool at_most(const uint8_t *bytes, size_t from, size_t to, unsigned most)
{
    for (size_t i = from; i < to; i++)
        if (bytes[i] > most)
            return false;
    return true;
}

static bool part_is_sound(const uint8_t *operation, const part *p)
{
    const size_t len = operation[p->at];
    const size_t used = len < 8 ? len : 8;
    const uint8_t *bytes = operation + p->at + 1;

    return kept(p->fits, len <= 8) && kept(p->each, at_most(bytes, 0, used, p->most)) && kept(p->behind, at_most(bytes, used, 8, 0));
}

static bool operation_is_sound(const uint8_t *operation)
{
    static const part takes = {256, 31, RULE_TAKES, RULE_ITEMS, RULE_BEHIND_ITEMS};
    static const part gives = {265, 15, RULE_GIVES, RULE_KINDS, RULE_BEHIND_KINDS};

    return kept(RULE_NAME, operation[0] > 0) && kept(RULE_BEHIND_NAME, at_most(operation + 1, operation[0], 255, 0)) &&
           part_is_sound(operation, &takes) && part_is_sound(operation, &gives);
}

const uint8_t *operation_named(const uint8_t *table, size_t table_len, const void *name, size_t name_len)
{
    for (size_t at = 0; at + OPERATION <= table_len; at += OPERATION)
        if (table[at] == name_len && memcmp(table + at + 1, name, name_len) == 0)
            return table + at;
    return NULL;
}

bool table_is_sound(const uint8_t *table, size_t table_len)
{
    if (!kept(RULE_WHOLE, table_len % OPERATION == 0) || !kept(RULE_OPERATIONS, table_len / OPERATION <= 256))
        return false;
    for (size_t at = 0; at + OPERATION <= table_len; at += OPERATION) {
        const bool first = operation_named(table, at, table + at + 1, table[at]) == NULL;

        if (!operation_is_sound(table + at) || !kept(RULE_DISTINCT, first))
            return false;
    }
    return true;
}
