#include "tell.h"

#include <ctype.h>
#include <inttypes.h>
#include <stdio.h>

/* How many bytes from the first on are alike. */
static size_t run_of(const uint8_t *bytes, size_t len)
{
    size_t run = 1;

    while (run < len && bytes[run] == bytes[0])
        run++;
    return run;
}

/* One byte, or many that are alike, as text. */
static void tell_run(uint8_t byte, size_t count)
{
    const size_t told = count > 8 ? 1 : count;

    for (size_t i = 0; i < told; i++)
        printf(isprint(byte) ? "%c" : "<%02x>", byte);
    if (told < count)
        printf("<%zu times>", count);
}

static void tell_draft(const uint8_t *draft, size_t len)
{
    printf("    hex ");
    for (size_t i = 0; i < len; i++)
        printf("%02x", draft[i]);
    printf("\n    text ");
    for (size_t i = 0, run; i < len; i += run) {
        run = run_of(draft + i, len - i);
        tell_run(draft[i], run);
    }
    putchar('\n');
}

/* A line of bytes for each operation, in hex; `00*251` are 251 zeros. */
static void tell_table(const uint8_t *bytes, size_t len)
{
    const size_t row = sizeof(vogieburn_operation);

    printf("    table of %zu bytes, %zu to an operation\n", len, row);
    for (size_t at = 0; at < len; at += row) {
        const size_t end = len - at > row ? at + row : len;

        printf("       ");
        for (size_t i = at, run; i < end; i += run) {
            run = run_of(bytes + i, end - i);
            printf(run == 1 ? " %02x" : " %02x*%zu", bytes[i], run);
        }
        putchar('\n');
    }
}

void tell_call(const char *what, const call *c)
{
    printf("%s: %zu bytes", what, c->draft_len);
    if (!has_place(c->sort))
        printf(", room for %zu numbers and %zu bytes of text", c->list_len, c->text_len);
    putchar('\n');
    tell_draft(c->draft, c->draft_len);
    if (c->sort == CHECK)
        tell_table(c->table, c->table_len);
    if (has_place(c->sort))
        printf("    place %" PRIu64 "\n", c->place);
}

void tell_answer(const char *who, enum sort sort, const any_answer *a)
{
    printf("%s:", who);
    for (size_t i = 0; i < numbers_of(sort); i++)
        printf(" %s %" PRIu64, number_names[sort][i], a->numbers[i]);
    putchar('\n');
}

void tell_mismatch(const char *what, const mismatch *m)
{
    const call c = call_of(m);

    tell_call(what, &c);
    tell_answer("archive", m->sort, &m->v.archive);
    tell_answer("peer", m->sort, &m->v.peer);
    printf("difference: %s\n", m->v.difference);
    fflush(stdout);
}
