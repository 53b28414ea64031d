/* Units of words, of brackets and of metacommands. */
#include "units.h"

#include "number.h"

/* ---- words and numbers */

void put_word(making *m)
{
    static const char signs[] = "?@=:";

    if (one_in(&m->l, 3))
        put_byte(m->d, (unsigned char)signs[below(&m->l, sizeof signs - 1)]);
    put_letters(m, 2 + below(&m->l, 10));
    put_space(m);
}

void put_capitals(making *m)
{
    for (size_t left = 2 + below(&m->l, 10); left > 0; left--)
        put_byte(m->d, (unsigned char)('A' + below(&m->l, 26)));
    put_space(m);
}

void put_one_letter(making *m)
{
    put_letters(m, 1);
    put_space(m);
}

void put_signed_name(making *m)
{
    static const char signs[] = "?@=:";

    put_byte(m->d, (unsigned char)signs[below(&m->l, sizeof signs - 1)]);
    put_letters(m, 1 + below(&m->l, 2));
    put_space(m);
}

/* Two or three words in one, as weavers name their motifs. */
void put_compound(making *m)
{
    for (size_t left = 1 + below(&m->l, 2); left > 0; left--) {
        put_letters(m, 2 + below(&m->l, 5));
        put_byte(m->d, '_');
    }
    put_letters(m, 2 + below(&m->l, 5));
    put_space(m);
}

/* One sign or two. */
void put_operator(making *m)
{
    static const char signs[] = "+-*/<>=!&^~.$_";

    for (size_t left = one_in(&m->l, 3) ? 2 : 1; left > 0; left--)
        put_byte(m->d, (unsigned char)signs[below(&m->l, sizeof signs - 1)]);
    put_space(m);
}

/* Three signs to ten, as rules and arrows are drawn. */
void put_signs(making *m)
{
    static const char signs[] = "+-*/<>=!&^~.$_";

    for (size_t left = 3 + below(&m->l, 8); left > 0; left--)
        put_byte(m->d, (unsigned char)signs[below(&m->l, sizeof signs - 1)]);
    put_space(m);
}

/* Letters and signs by turns, as in a sum. */
void put_sum(making *m)
{
    static const char signs[] = "+*<>=!&^~$";

    put_letters(m, 1);
    for (size_t left = 1 + below(&m->l, 3); left > 0; left--) {
        put_byte(m->d, (unsigned char)signs[below(&m->l, sizeof signs - 1)]);
        put_letters(m, 1);
    }
    put_space(m);
}

void put_one_sign(making *m)
{
    static const char signs[] = "+*<>=!&^~$'?";

    put_letters(m, 1 + below(&m->l, 5));
    put_byte(m->d, (unsigned char)signs[below(&m->l, sizeof signs - 1)]);
    put_letters(m, below(&m->l, 5));
    put_space(m);
}

void put_indented(making *m)
{
    put_many(m->d, ' ', 4 * below(&m->l, 8));
    put_letters(m, 1 + below(&m->l, 8));
    put_byte(m->d, '\n');
}

void put_array(making *m, const char *behind_comma)
{
    const size_t len = 1 + below(&m->l, 9);

    put_byte(m->d, '[');
    for (size_t i = 0; i < len; i++) {
        if (i > 0) {
            put_byte(m->d, ',');
            put_bytes(m->d, behind_comma, strlen(behind_comma));
        }
        put_number(m->d, &m->l);
    }
    put_byte(m->d, ']');
}

void put_numbers(making *m)
{
    put_array(m, one_in(&m->l, 4) ? "" : " ");
    put_space(m);
}

void put_tabbed(making *m)
{
    if (one_in(&m->l, 4))
        put_array(m, "\t");
    else
        put_letters(m, 2 + below(&m->l, 10));
    put_byte(m->d, '\t');
}

/* ---- brackets */

void put_empty_array(making *m)
{
    put_bytes(m->d, "[]", 2);
    if (!one_in(&m->l, 4))
        put_space(m);
}

/* An array of strings of both sorts, some with a prefix. */
void put_strings(making *m)
{
    const size_t len = 1 + below(&m->l, 6);

    put_byte(m->d, '[');
    for (size_t i = 0; i < len; i++) {
        const bool curly = one_in(&m->l, 2);

        if (i > 0)
            put_bytes(m->d, ", ", 2);
        if (one_in(&m->l, 6))
            put_letters(m, 1 + below(&m->l, 4));
        put_opening(m, curly);
        put_text(m, below(&m->l, 20));
        put_closing(m, curly);
    }
    put_byte(m->d, ']');
    put_space(m);
}

/* Groups in each other, at most 60 deep, around a number. */
void put_groups(making *m)
{
    const size_t deep = (span(m, 42, 122) - 2) / 2;

    put_many(m->d, '(', deep);
    put_byte(m->d, '1' + (unsigned)below(&m->l, 9));
    put_many(m->d, ')', deep);
    put_byte(m->d, '\n');
}

/* ---- metacommands */

/* A blank and a word, a number or a string. */
static void put_argument(making *m)
{
    const size_t way = below(&m->l, 6);

    put_byte(m->d, ' ');
    if (way < 3) {
        put_letters(m, 1 + below(&m->l, 8));
    } else if (way == 3) {
        put_number(m->d, &m->l);
    } else {
        put_opening(m, way == 4);
        put_text(m, below(&m->l, 12));
        put_closing(m, way == 4);
    }
}

void put_metacommand(making *m)
{
    put_byte(m->d, '%');
    put_letters(m, 1 + below(&m->l, 8));
    for (size_t left = below(&m->l, 4); left > 0; left--)
        put_argument(m);
    put_byte(m->d, ';');
    put_space(m);
}
