/* Units of strings and of comments. */
#include <stdio.h>

#include "units.h"

/* ---- parts */

void put_letters(making *m, size_t len)
{
    static const char letters[] = "etaoinshrdlucmfwypvbgkjqxz";

    for (; len > 0; len--)
        put_byte(m->d, (unsigned char)letters[below(&m->l, sizeof letters - 1)]);
}

void put_text(making *m, size_t len)
{
    const size_t end = m->d->len + len;

    while (m->d->len < end) {
        const size_t word = 1 + below(&m->l, 9), left = end - m->d->len;

        put_letters(m, word < left ? word : left);
        if (m->d->len < end)
            put_byte(m->d, one_in(&m->l, 9) ? ',' : ' ');
    }
}

void put_opening(making *m, bool curly)
{
    put_byte(m->d, curly ? '{' : '"');
}

void put_closing(making *m, bool curly)
{
    put_byte(m->d, curly ? '}' : '"');
}

void put_space(making *m)
{
    put_byte(m->d, one_in(&m->l, 8) ? '\n' : ' ');
}

size_t span(making *m, size_t least, size_t most)
{
    const size_t len = least + below(&m->l, most - least + 1);

    if (m->room < least)
        return m->units == 0 ? m->room : least;
    if (len + least <= m->room)
        return len;
    return m->room <= most ? m->room : m->room - least;
}

/* ---- characters above US-ASCII */

/* A character of two, three or four bytes, as `script` is 0, 1 or 2. No surrogate is among those of three. */
static void put_wide_character(making *m, size_t script)
{
    const uint32_t three = 0x800 + (uint32_t)below(&m->l, 0xF000);

    if (script == 0)
        put_character(m->d, 0x80 + (uint32_t)below(&m->l, 0x780));
    else if (script == 1)
        put_character(m->d, three < 0xD800 ? three : three + 0x800);
    else
        put_character(m->d, 0x10000 + (uint32_t)below(&m->l, 0x100000));
}

/* At most so many bytes, at least three less: in one of three scripts, or in all of them. That of three bytes has no blanks. */
static void put_wide_text(making *m, size_t len)
{
    const size_t end = m->d->len + len, script = below(&m->l, 4);

    while (m->d->len + 4 <= end)
        if (script != 1 && one_in(&m->l, 7))
            put_byte(m->d, ' ');
        else
            put_wide_character(m, script < 3 ? script : below(&m->l, 3));
}

/* ---- strings */

void put_long_string(making *m)
{
    const size_t len = span(m, 100, 1000);
    const bool curly = one_in(&m->l, 2);

    put_opening(m, curly);
    put_text(m, len - 3);
    put_closing(m, curly);
    put_space(m);
}

void put_wide_string(making *m)
{
    const size_t len = span(m, 40, 400);
    const bool curly = one_in(&m->l, 2);

    put_opening(m, curly);
    put_wide_text(m, len - 3);
    put_closing(m, curly);
    put_space(m);
}

void put_short_string(making *m)
{
    const bool curly = one_in(&m->l, 2);

    put_opening(m, curly);
    put_letters(m, 1 + below(&m->l, 4));
    put_closing(m, curly);
    put_space(m);
}

void put_prefixed(making *m)
{
    const bool curly = one_in(&m->l, 2);

    put_letters(m, 1 + below(&m->l, 4));
    put_opening(m, curly);
    put_letters(m, below(&m->l, 8));
    put_closing(m, curly);
    put_space(m);
}

/* Some words of letters, each ended by a character from `first` on, one of thirty-two. */
static void put_accents(making *m, uint32_t first)
{
    for (size_t left = 1 + below(&m->l, 4); left > 0; left--) {
        put_letters(m, 1 + below(&m->l, 5));
        put_character(m->d, first + (uint32_t)below(&m->l, 0x20));
    }
}

/* Letters, and now and then one of two bytes. */
void put_accented(making *m)
{
    const bool curly = one_in(&m->l, 2);

    put_opening(m, curly);
    put_accents(m, 0xE0);
    put_closing(m, curly);
    put_space(m);
}

/* The same with a dash or another sign of three bytes. */
void put_dashes(making *m)
{
    const bool curly = one_in(&m->l, 2);

    put_opening(m, curly);
    put_accents(m, 0x2010);
    put_closing(m, curly);
    put_space(m);
}

/* Lines of such letters, ended by CR LF. */
void put_lines(making *m)
{
    const bool curly = one_in(&m->l, 2);

    put_opening(m, curly);
    for (size_t left = 1 + below(&m->l, 3); left > 0; left--) {
        put_accents(m, 0xE0);
        put_bytes(m->d, "\r\n", 2);
    }
    put_closing(m, curly);
    put_space(m);
}

void put_accented_comment(making *m)
{
    put_byte(m->d, '#');
    put_accents(m, 0xE0);
    put_byte(m->d, '\n');
}

void put_dashed_comment(making *m)
{
    put_byte(m->d, '#');
    put_accents(m, 0x2010);
    put_byte(m->d, '\n');
}

/* Names and arrays as other formats write them. */
void put_data(making *m)
{
    put_opening(m, true);
    for (size_t left = 1 + below(&m->l, 3); left > 0; left--) {
        put_letters(m, 1 + below(&m->l, 4));
        put_byte(m->d, '_');
        put_letters(m, 1 + below(&m->l, 4));
        put_bytes(m->d, ": [", 3);
        put_letters(m, 1 + below(&m->l, 4));
        put_byte(m->d, ']');
    }
    put_closing(m, true);
    put_space(m);
}

void put_short_comment(making *m)
{
    put_byte(m->d, '#');
    put_letters(m, below(&m->l, 6));
    put_byte(m->d, '\n');
}

/* An escape has two bytes, so that none is taken for a part of the next one. */
void put_escapes(making *m)
{
    static const char *const escapes[2][3] = {{"\\\\", "\\\"", "\\n"}, {"\\\\", "\\{", "\\}"}};
    const bool curly = one_in(&m->l, 2);

    put_opening(m, curly);
    for (size_t left = 1 + below(&m->l, 12); left > 0; left--) {
        put_letters(m, below(&m->l, 6));
        put_bytes(m->d, escapes[curly][below(&m->l, 3)], 2);
    }
    put_closing(m, curly);
    put_space(m);
}

void put_curly(making *m, size_t depth)
{
    put_opening(m, true);
    put_letters(m, below(&m->l, 6));
    for (size_t left = depth > 0 ? 1 + below(&m->l, 2) : 0; left > 0; left--) {
        put_curly(m, depth - 1);
        put_letters(m, below(&m->l, 6));
    }
    put_closing(m, true);
}

void put_nested(making *m)
{
    put_curly(m, 1 + below(&m->l, 5));
    put_space(m);
}

void put_pairs(making *m)
{
    const bool curly = one_in(&m->l, 2);

    put_opening(m, curly);
    for (size_t left = 1 + below(&m->l, 16); left > 0; left--) {
        put_character(m->d, 0xD800 + (uint32_t)below(&m->l, 0x400));
        put_character(m->d, 0xDC00 + (uint32_t)below(&m->l, 0x400));
        if (one_in(&m->l, 4))
            put_letters(m, 1 + below(&m->l, 8));
    }
    put_closing(m, curly);
    put_space(m);
}

/* A plain Netpbm bitmap, a row to a line. */
/* One surrogate pair among letters. */
void put_one_pair(making *m)
{
    const bool curly = one_in(&m->l, 2);

    put_opening(m, curly);
    put_letters(m, below(&m->l, 8));
    put_character(m->d, 0xD800 + (uint32_t)below(&m->l, 0x400));
    put_character(m->d, 0xDC00 + (uint32_t)below(&m->l, 0x400));
    put_letters(m, below(&m->l, 12));
    put_closing(m, curly);
    put_space(m);
}

/* Words of three bytes a letter, or with a character of four behind them. */
void put_foreign_comment(making *m)
{
    put_byte(m->d, '#');
    for (size_t left = 1 + below(&m->l, 3); left > 0; left--) {
        put_byte(m->d, ' ');
        if (one_in(&m->l, 2)) {
            put_letters(m, below(&m->l, 8));
            put_character(m->d, 0x1F300 + (uint32_t)below(&m->l, 0x300));
        } else {
            for (size_t letters = 1 + below(&m->l, 4); letters > 0; letters--)
                put_character(m->d, 0x904 + (uint32_t)below(&m->l, 0x36));
        }
    }
    put_byte(m->d, '\n');
}

void put_picture(making *m)
{
    const size_t width = 4 + below(&m->l, 13), height = 2 + below(&m->l, 11);
    char head[24];
    const int len = snprintf(head, sizeof head, "pbm\"P1 %zu %zu\n", width, height);

    put_bytes(m->d, head, (size_t)len);
    for (size_t i = 1; i <= width * height; i++) {
        put_byte(m->d, '0' + (unsigned)below(&m->l, 2));
        put_byte(m->d, i % width == 0 ? '\n' : ' ');
    }
    put_closing(m, false);
    put_space(m);
}

/* ---- comments */

void put_comment(making *m)
{
    const size_t len = span(m, 12, 90);

    put_bytes(m->d, "# ", 2);
    put_text(m, len - 3);
    put_byte(m->d, '\n');
}

void put_wide_comment(making *m)
{
    const size_t len = span(m, 12, 90);

    put_bytes(m->d, "# ", 2);
    put_wide_text(m, len - 3);
    put_byte(m->d, '\n');
}
