/* Units of drafts as a weaver writes them. */
#include "number.h"
#include "units.h"

/* ---- statements */

static void put_operation(making *m)
{
    put_byte(m->d, ' ');
    put_letters(m, 3 + below(&m->l, 7));
}

static void put_name(making *m, const char *sign)
{
    put_bytes(m->d, sign, strlen(sign));
    put_letters(m, 1 + below(&m->l, 8));
}

static void put_remark(making *m)
{
    put_bytes(m->d, "# ", 2);
    put_text(m, 8 + below(&m->l, 40));
}

static void put_group(making *m)
{
    const size_t deep = 1 + below(&m->l, 3);

    put_many(m->d, '(', deep);
    put_number(m->d, &m->l);
    put_name(m, " =");
    put_operation(m);
    put_many(m->d, ')', deep);
}

static void put_definition(making *m)
{
    put_number(m->d, &m->l);
    put_name(m, one_in(&m->l, 3) ? " @" : " ?");
}

static void put_quoted(making *m)
{
    put_opening(m, false);
    put_text(m, below(&m->l, 30));
    put_closing(m, false);
}

enum { METACOMMAND, REMARK, DEFINITION, ARRAY, GROUP, QUOTED, CURLY, NAME, SORTS };

static void put_statement(making *m, size_t sort)
{
    switch (sort) {
    case METACOMMAND: put_metacommand(m); return;
    case REMARK: put_remark(m); break;
    case DEFINITION: put_definition(m); break;
    case ARRAY: put_array(m, " "); break;
    case GROUP: put_group(m); break;
    case QUOTED: put_quoted(m); break;
    case CURLY: put_curly(m, below(&m->l, 2)); break;
    default: put_name(m, "="); break;
    }
    if (sort >= ARRAY)
        put_operation(m);
    if (sort == NAME)
        put_name(m, " :");
    put_byte(m->d, '\n');
}

/* A metacommand, a comment, an array, a group, a name and both strings, all of them short. */
static void put_all(making *m)
{
    put_byte(m->d, '%');
    put_letters(m, 1);
    put_bytes(m->d, "; # ", 4);
    put_letters(m, 1 + below(&m->l, 4));
    put_bytes(m->d, "\n[", 2);
    put_number(m->d, &m->l);
    put_bytes(m->d, "] (=", 4);
    put_letters(m, 1 + below(&m->l, 3));
    put_bytes(m->d, ") \"", 3);
    put_letters(m, 1 + below(&m->l, 3));
    put_bytes(m->d, "\" {", 3);
    put_letters(m, 1 + below(&m->l, 3));
    put_byte(m->d, '}');
    put_operation(m);
    put_byte(m->d, '\n');
}

/* ---- units */

void put_mixed(making *m)
{
    if (m->units == 0 && m->room < 64)
        put_all(m);
    else
        put_statement(m, m->units < SORTS ? m->units : below(&m->l, SORTS));
}

void put_mixed_cr_lf(making *m)
{
    static draft with_lf;
    making other = *m;

    with_lf.len = 0;
    other.d = &with_lf;
    put_mixed(&other);
    m->l = other.l;
    for (size_t i = 0; i < with_lf.len; i++) {
        if (with_lf.bytes[i] == '\n')
            put_byte(m->d, '\r');
        put_byte(m->d, with_lf.bytes[i]);
    }
}

void put_23_bytes(making *m)
{
    const unsigned one = 1 + (unsigned)below(&m->l, 9), two = 10 + (unsigned)below(&m->l, 90), three = 10 + (unsigned)below(&m->l, 90);
    char numbers[24];
    const int len = snprintf(numbers, sizeof numbers, "; [%u, %u, %u] ", one, two, three);

    if (m->index == 0) {
        put(m->d, (piece)PIECE("%w; [3, 11, 19] bind "));
        return;
    }
    put_byte(m->d, '%');
    put_letters(m, 1);
    put_bytes(m->d, numbers, (size_t)len);
    put_letters(m, 4);
    put_byte(m->d, ' ');
}
