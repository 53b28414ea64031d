#include "draft.h"
#include "parts.h"
#include "table.h"
#include "tally.h"

static draft d;
static table t;
static uint64_t drafts;

static const operation operations[] = {
    {PIECE("one"), PIECE(""), PIECE("\0")},
    {PIECE("eight"), PIECE(""), PIECE("\0\1\2\3\0\1\2\0")},
    {PIECE("number"), PIECE("\0"), PIECE("")},
    {PIECE("string"), PIECE("\1"), PIECE("")},
    {PIECE("numbers"), PIECE("\x10"), PIECE("")},
    {PIECE("strings"), PIECE("\x11"), PIECE("")},
    {PIECE("houses"), PIECE("\x12"), PIECE("\3")},
    {PIECE("pair"), PIECE("\x10\x11"), PIECE("")},
    {PIECE("same"), PIECE("\0"), PIECE("\0")},
    {PIECE("double"), PIECE("\0"), PIECE("\0\0")},
    {PIECE("make"), PIECE(""), PIECE("\2")},
};

/* Checks the draft, with `|;` behind it, and room for all of its entities. */
static void check(size_t entities)
{
    put(&d, (piece)PIECE(" |;"));
    begin_draft(drafts++);
    hold(&d, &t, entities * VOGIEBURN_NUMBERS, d.len);
}

static void put_times(piece p, size_t times)
{
    for (; times > 0; times--)
        put(&d, p);
}

/* ---- 1,024 cells */

/* So many cells, pushed in one way, hidden or not; then what may cross the limit. */
static void try_heights(void)
{
    static const piece pushing[] = {PIECE("1 "), PIECE("\"\""), PIECE("[]"), PIECE("=a "), PIECE("one ")};
    static const piece crossing[] = {
        PIECE("1 "),   PIECE("\"\""),   PIECE("{}"),      PIECE("[]"),    PIECE("=a "),     PIECE("=b "),
        PIECE("one "), PIECE("eight "), PIECE("number "), PIECE("same "), PIECE("double "), PIECE("houses "),
        PIECE("[1]"),  PIECE("(1)"),    PIECE("()"),      PIECE(":a "),   PIECE("?b "),     PIECE("%x;"),
    };
    static const char hiding[] = "((", showing[] = "))";

    for (size_t i = 0; i < COUNT(pushing); i++)
        for (size_t height = 1015; height <= 1025; height++)
            for (size_t k = 0; k < COUNT(crossing); k++)
                for (size_t hidden = 0; hidden <= 2; hidden++) {
                    d.len = 0;
                    put(&d, (piece)PIECE("1 ?a "));
                    put_times(pushing[i], height);
                    put_bytes(&d, hiding, hidden);
                    put(&d, crossing[k]);
                    put_bytes(&d, showing, hidden);
                    check(height + 16);
                }
}

/* ---- 128 names */

/* Three digits: alone, behind and before much that is shared; or letters, more and more of them from none on. */
enum { STYLES = 4 };

static void put_name(size_t style, size_t i)
{
    static const char shared[] = "brocaded-on-tabby-ground";

    if (style == 3) {
        put_many(&d, 'n', i / 3);
        put_many(&d, 'a' + (unsigned)(i % 3), i > 0);
        return;
    }
    if (style == 1)
        put_bytes(&d, shared, sizeof shared - 1);
    put_byte(&d, '0' + (unsigned)(i / 100));
    put_byte(&d, '0' + (unsigned)(i / 10 % 10));
    put_byte(&d, '0' + (unsigned)(i % 10));
    if (style == 2)
        put_bytes(&d, shared, sizeof shared - 1);
}

/* A sign and a name behind something. */
static void put_signed(piece before, unsigned sign, size_t style, size_t i)
{
    put(&d, before);
    put_byte(&d, sign);
    put_name(style, i);
    put_byte(&d, ' ');
}

/* Every third name is a string's, and every other one a constant. */
static void define_names(size_t style, size_t count)
{
    d.len = 0;
    for (size_t i = 0; i < count; i++)
        put_signed(i % 3 == 0 ? (piece)PIECE("\"\"") : (piece)PIECE("1 "), i % 2 == 0 ? '@' : '?', style, i);
}

/* Each name is got, and its kind is looked at; each is put to, as far as that goes. */
static void use_names(size_t style, size_t count)
{
    define_names(style, count);
    for (size_t i = 0; i < count; i++) {
        put_signed((piece)PIECE(""), '=', style, i);
        put(&d, i % 3 == 0 ? (piece)PIECE("string ") : (piece)PIECE("number "));
        if (i % 2 == 1)
            put_signed(i % 3 == 0 ? (piece)PIECE("\"\"") : (piece)PIECE("1 "), ':', style, i);
    }
    check(6 * count);
}

static void try_names(void)
{
    static const piece before[] = {PIECE(""), PIECE("1 "), PIECE("\"\""), PIECE("[]"), PIECE("(1 "), PIECE("1(")};
    static const char signs[] = "?@=:";

    for (size_t style = 0; style < STYLES; style++)
        for (size_t count = 126; count <= 130; count++) {
            for (size_t i = 0; i < COUNT(before); i++)
                for (size_t k = 0; k < sizeof signs - 1; k++)
                    for (size_t name = 0; name <= 200; name += 50) {
                        define_names(style, count);
                        put_signed(before[i], (unsigned char)signs[k], style, name);
                        put_many(&d, ')', i >= 4);
                        check(2 * count + 8);
                    }
            use_names(style, count);
        }
}

/* Two names that differ in one byte only, one of a number and one of a string. */
static void try_one_byte(void)
{
    static const piece before[] = {PIECE("1 ?"), PIECE("\"\"@"), PIECE("="), PIECE("number ="), PIECE("string ")};

    for (size_t len = 1; len <= 254; len++)
        for (size_t at = 0; at < len; at += len % 16 == 14 ? 1 : 1 + len / 8) {
            d.len = 0;
            for (size_t i = 0; i < 4; i++) {
                put(&d, before[i]);
                put_marked(&d, len, at, i % 2 == 0 ? 'a' : 'b');
                put_byte(&d, ' ');
            }
            put(&d, before[4]);
            check(9);
        }
}

/* ---- groups */

static void try_groups(void)
{
    static const size_t depths[] = {1, 2, 3, 31, 32, 33, 62, 63, 64};
    static const piece before[] = {PIECE(""), PIECE("1 "), PIECE("\"\""), PIECE("1 1 "), PIECE("[1]")};
    static const piece level[] = {PIECE("("), PIECE("(1 number "), PIECE("(1 "), PIECE("(number ")};
    static const piece middle[] = {PIECE("1"),     PIECE(""),       PIECE("1 2"), PIECE("[]"),    PIECE("number "),
                                   PIECE("make "), PIECE("1 same"), PIECE("=a "), PIECE("1 ?a "), PIECE("numbers "),
                                   PIECE("%x;")};
    static const piece behind[] = {PIECE(""), PIECE(" number "), PIECE(" number number "), PIECE(" numbers ")};

    for (size_t i = 0; i < COUNT(depths); i++)
        for (size_t j = 0; j < COUNT(before); j++)
            for (size_t k = 0; k < COUNT(level); k++)
                for (size_t m = 0; m < COUNT(middle); m++)
                    for (size_t n = 0; n < COUNT(behind); n++) {
                        d.len = 0;
                        put(&d, before[j]);
                        put_times(level[k], depths[i]);
                        put(&d, middle[m]);
                        put_many(&d, ')', depths[i]);
                        put(&d, behind[n]);
                        check(4 * depths[i] + 16);
                    }
}

/* ---- arrays */

/* An array of one element again and again, but for the one at `odd`, and what takes it or does not. */
static void put_array(piece element, size_t count, size_t odd, piece other)
{
    d.len = 0;
    put(&d, (piece)PIECE("1 ?a "));
    put_byte(&d, '[');
    for (size_t i = 0; i < count; i++) {
        if (i > 0)
            put_byte(&d, ',');
        put(&d, i == odd ? other : element);
    }
    put_byte(&d, ']');
}

static void try_arrays(void)
{
    static const size_t counts[] = {0, 1, 2, 3, 16, 255, 256, 257, 1022, 1023, 1024};
    static const piece elements[] = {PIECE("1"),     PIECE("\"\""),    PIECE("[]"), PIECE("(1)"), PIECE("=a "),
                                     PIECE("make "), PIECE("1 same "), PIECE(""),   PIECE("1 2")};
    static const piece taking[] = {PIECE(""),           PIECE("numbers "),      PIECE("strings "),       PIECE("houses "),
                                   PIECE("number "),    PIECE(":a "),           PIECE("?b =b numbers "), PIECE("[1]pair "),
                                   PIECE("1 numbers "), PIECE("same numbers "), PIECE("(numbers)"),      PIECE("[]pair ")};

    for (size_t i = 0; i < COUNT(counts); i++)
        for (size_t j = 0; j < COUNT(elements); j++)
            for (size_t k = 0; k < COUNT(taking); k++)
                for (size_t odd = 0; odd <= 3; odd++) {
                    const size_t at[] = {counts[i], 0, counts[i] / 2, counts[i] - 1};

                    put_array(elements[j], counts[i], at[odd], elements[(j + k) % COUNT(elements)]);
                    put(&d, taking[k]);
                    check(5 * counts[i] + 32);
                }
}

/* ---- kinds */

/* Each kind given by one operation, and each item taken by another. */
static void try_kinds(void)
{
    static const piece models[] = {PIECE("give take"),         PIECE("[give]take"), PIECE("[give,give]take"), PIECE("[]take"),
                                   PIECE("give ?a =a take"),   PIECE("1 take"),     PIECE("\"\"take"),
                                   PIECE("1 ?a give :a take"), PIECE("take"),       PIECE("[1]take"),         PIECE("{}take")};

    for (unsigned kind = 0; kind < KINDS; kind++)
        for (unsigned item = 0; item < 2 * KINDS; item++) {
            const char gives = (char)kind, takes = (char)item;

            t.len = 0;
            put_operation(&t, (operation){PIECE("give"), PIECE(""), {&gives, 1}});
            put_operation(&t, (operation){PIECE("take"), {&takes, 1}, PIECE("")});
            for (size_t i = 0; i < COUNT(models); i++) {
                d.len = 0;
                put(&d, models[i]);
                check(16);
            }
        }
}

void try_cells(void)
{
    drafts = 0;
    begin_part("kinds");
    try_kinds();
    t.len = 0;
    put_operations(&t, operations, COUNT(operations));
    begin_part("cells and names");
    try_heights();
    try_names();
    try_one_byte();
    begin_part("groups and arrays");
    try_groups();
    try_arrays();
}
