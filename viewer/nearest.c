#include "nearest.h"

/* How many changes make the first bytes of one name those of another: a row for each beginning of the one, the last three of which are
 * kept, and a number in it for each beginning of the other. */
typedef struct {
    span one, other;
    size_t rows[3][VOGIEBURN_OPERATION_NAME_LIMIT + 1];
} changes;

static size_t least(size_t a, size_t b)
{
    return a < b ? a : b;
}

/* Whether both beginnings end with the same two bytes, in the other order. */
static bool is_turned(const changes *c, size_t i, size_t j)
{
    return i > 1 && j > 1 && c->one.bytes[i - 1] == c->other.bytes[j - 2] && c->one.bytes[i - 2] == c->other.bytes[j - 1];
}

static size_t changes_at(const changes *c, size_t i, size_t j)
{
    const size_t *const row = c->rows[i % 3], *const before = c->rows[(i + 2) % 3];
    size_t n;

    if (i == 0 || j == 0)
        return i + j;
    n = least(before[j - 1] + (c->one.bytes[i - 1] != c->other.bytes[j - 1]), least(before[j], row[j - 1]) + 1);
    return is_turned(c, i, j) ? least(n, c->rows[(i + 1) % 3][j - 2] + 1) : n;
}

static void fill_row(changes *c, size_t i)
{
    for (size_t j = 0; j <= c->other.length; j++)
        c->rows[i % 3][j] = changes_at(c, i, j);
}

static size_t changes_between(span one, span other)
{
    changes c = {.one = one, .other = other};

    for (size_t i = 0; i <= one.length; i++)
        fill_row(&c, i);
    return c.rows[one.length % 3][other.length];
}

size_t table_nearest(const table *t, span name)
{
    size_t found = t->count, fewest = (name.length + 2) / 3 + 1;

    for (size_t i = 0; i < t->count; i++) {
        const size_t n = changes_between(name, (span){t->operations[i].name, t->operations[i].name_len});

        if (n < fewest && n < name.length) {
            found = i;
            fewest = n;
        }
    }
    return found;
}
