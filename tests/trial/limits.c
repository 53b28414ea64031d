#include <stddef.h>
#include <string.h>

#include "draft.h"
#include "parts.h"
#include "places.h"
#include "tally.h"

static draft d;
static uint64_t drafts;
static enum sort sort_now;
static const table *under; /* the table, if drafts are checked */

/* Makes a call with room for so many entities, then with the room that it took, and with one entity, one number or one byte
 * more or less than that. */
static void hold_around(size_t entities)
{
    vogieburn_answer a;
    size_t list_len, text_len;

    a = hold(&d, under, entities * VOGIEBURN_NUMBERS, d.len);
    list_len = (size_t)a.entities * VOGIEBURN_NUMBERS;
    text_len = (size_t)a.text;
    hold(&d, under, list_len, text_len);
    hold(&d, under, list_len + VOGIEBURN_NUMBERS, text_len + 1);
    if (list_len > 0)
        hold(&d, under, list_len - 1, text_len);
    if (text_len > 0)
        hold(&d, under, list_len, text_len - 1);
}

/* Makes the calls of the sort that is tried. Drafts at the limit have too many tokens to be stepped through. */
static void read_around(size_t entities)
{
    begin_draft(drafts++);
    if (!has_place(sort_now)) {
        hold_around(entities);
        return;
    }
    ask_at_ends(sort_now, &d);
    if (sort_now == STEP && d.len < VOGIEBURN_DRAFT_LIMIT / 2)
        walk(&d);
}

/* ---- the draft's length */

static void try_draft_lengths(void)
{
    static const filling fillings[] = {
        {PIECE(""), PIECE(" "), PIECE("|;")},
        {PIECE(""), PIECE(" "), PIECE("")},
        {PIECE("\xEF\xBB\xBF"), PIECE("\r\n"), PIECE("|;")},
        {PIECE("|;"), PIECE("\xFF"), PIECE("")},
        {PIECE(""), PIECE("ab "), PIECE(" |;")},
        {PIECE("["), PIECE(","), PIECE("]|;")},
        {PIECE("#"), PIECE("x"), PIECE("\n|;")},
        {PIECE("#"), PIECE("\xF0\x9F\x98\x80"), PIECE("\n|")},
        {PIECE("%"), PIECE("p\"\xED\xA0\xBD\xED\xB8\x80\""), PIECE(";|;")},
        {PIECE(""), PIECE("(a)"), PIECE("\xED\xA0")},
        {PIECE("|;"), PIECE("\t\r\n"), PIECE("")},
    };
    static const size_t lengths[] = {
        0, 1, 2, 3, 4, VOGIEBURN_DRAFT_LIMIT - 1, VOGIEBURN_DRAFT_LIMIT, VOGIEBURN_DRAFT_LIMIT + 1, DRAFT_ROOM};

    for (size_t i = 0; i < COUNT(fillings); i++)
        for (size_t j = 0; j < COUNT(lengths); j++) {
            fill(&d, &fillings[i], lengths[j]);
            read_around(2 * d.len);
        }
}

/* ---- a token's length */

static void try_token_lengths(void)
{
    static const piece before[] = {PIECE(""), PIECE("%"), PIECE("[")};
    static const piece first[] = {PIECE("a"), PIECE("+"), PIECE("?"), PIECE("="), PIECE("|")};
    static const piece behind[] = {
        PIECE(" |;"),  PIECE("\n|;"),    PIECE("\t|;"),     PIECE("\r\n|;"),       PIECE("()|;"), PIECE(")|;"),
        PIECE("[]|;"), PIECE("]|;"),     PIECE(",|;"),      PIECE("%;|;"),         PIECE(";|;"),  PIECE("#\n|;"),
        PIECE("}|;"),  PIECE("\"x\"|;"), PIECE("{x}|;"),    PIECE("|;"),           PIECE("\0|;"), PIECE("\r|;"),
        PIECE("\x7F"), PIECE("\xFF"),    PIECE("\xC3\xA9"), PIECE("\xED\xA0\x80"), PIECE(""),
    };

    for (size_t i = 0; i < COUNT(before); i++)
        for (size_t j = 0; j < COUNT(first); j++)
            for (size_t k = 0; k < COUNT(behind); k++)
                for (size_t len = 254; len <= 257; len++) {
                    d.len = 0;
                    put(&d, before[i]);
                    put(&d, first[j]);
                    put_many(&d, 'b', len - first[j].len);
                    put(&d, behind[k]);
                    read_around(16);
                }
}

/* ---- the length of string data */

/* So many clean bytes, then what crosses the limit or does not, then the string's end or none. */
static void put_string(piece opening, size_t len, piece crossing, piece behind)
{
    d.len = 0;
    put(&d, opening);
    put_many(&d, 'x', len);
    put(&d, crossing);
    put(&d, behind);
    read_around(8);
}

static void try_string_lengths(void)
{
    static const piece openings[] = {PIECE("\""), PIECE("%p{")};
    static const piece crossing[] = {
        PIECE(""),
        PIECE("a"),
        PIECE("\r\n"),
        PIECE("\xC3\xA9"),
        PIECE("\xE2\x82\xAC"),
        PIECE("\xF0\x9F\x98\x80"),
        PIECE("\\\""),
        PIECE("\\}"),
        PIECE("{}"),
        PIECE("\xED\xA0\xBD\xED\xB8\x80"),
    };
    static const piece behind[2][8] = {
        {PIECE("\" |;"), PIECE("z\" |;"), PIECE(""), PIECE("\xFF"), PIECE("\0"), PIECE("\r"), PIECE("\xED\xA0\x80"),
         PIECE("\\\"")},
        {PIECE("}; |;"), PIECE("z}; |;"), PIECE(""), PIECE("\xFF"), PIECE("\0"), PIECE("\r"), PIECE("\xED\xA0\x80"), PIECE("{}")},
    };

    for (size_t i = 0; i < COUNT(openings); i++)
        for (size_t j = 0; j < COUNT(crossing); j++) {
            for (size_t len = 4096 - 5; len <= 4096 + 1; len++)
                put_string(openings[i], len, crossing[j], behind[i][0]);
            for (size_t k = 1; k < COUNT(behind[i]); k++)
                put_string(openings[i], 4096 - 1, crossing[j], behind[i][k]);
        }
}

/* ---- open groups */

/* Opens `count` groups and arrays in the order that `openings` repeats; what stands in the middle; and what closes them. */
static void nest(const char *openings, size_t count, piece middle)
{
    d.len = 0;
    for (size_t i = 0; i < count; i++)
        put_byte(&d, (unsigned char)openings[i % strlen(openings)]);
    put(&d, middle);
    for (size_t i = count; i > 0; i--)
        put_byte(&d, openings[(i - 1) % strlen(openings)] == '(' ? ')' : ']');
    put(&d, (piece)PIECE(" |;"));
    read_around(4 * d.len);
}

static void try_group_depths(void)
{
    static const char *const openings[] = {"(", "[", "([", "[(", "((((((([", "[[[[[[[("};
    static const piece middles[] = {
        PIECE(""),    PIECE("1"),     PIECE("a "), PIECE("\"x\""), PIECE("%;"), PIECE("()"), PIECE("[]"),
        PIECE("[1]"), PIECE("[1,2]"), PIECE(","),  PIECE(",,"),    PIECE(")"),  PIECE("]"),  PIECE("("),
        PIECE("["),   PIECE("|;"),    PIECE(";"),  PIECE("%"),     PIECE("(["), PIECE("[("),
    };

    for (size_t i = 0; i < COUNT(openings); i++)
        for (size_t count = 62; count <= 66; count++)
            for (size_t k = 0; k < COUNT(middles); k++)
                nest(openings[i], count, middles[k]);
}

/* ---- room */

/* Every room up to one that is more than enough. */
static void try_rooms(void)
{
    static const piece models[] = {
        PIECE("|;"),
        PIECE("[] [[]] [,] |;"),
        PIECE("%w; [3, 11, 19] bind |;"),
        PIECE("pre\"da\xC3\xA9ta\"[a,b{c\r\nd}] ?x @ =y : |;"),
        PIECE("[[one],%m \"\xED\xA0\xBD\xED\xB8\x80\"(;,two(\"\"),] } -1 |;"),
        PIECE("((ab)[cd,(ef)]) %gh{i}; jk|;"),
    };

    for (size_t i = 0; i < COUNT(models); i++) {
        vogieburn_answer a;

        d.len = 0;
        put(&d, models[i]);
        begin_draft(drafts++);
        a = hold(&d, under, 2 * d.len * VOGIEBURN_NUMBERS, d.len);
        for (size_t list_len = 0; list_len <= (a.entities + 1) * VOGIEBURN_NUMBERS; list_len++)
            for (size_t text_len = 0; text_len <= a.text + 1; text_len++)
                hold(&d, under, list_len, text_len);
    }
}

void try_limits(enum sort sort, const table *t)
{
    static const char *const names[SORTS] = {"limits", "limits, checked", "tails at limits", "steps at limits"};

    drafts = 0;
    sort_now = sort;
    under = t;
    begin_part(names[sort]);
    try_draft_lengths();
    if (sort == TAIL)
        return;
    try_token_lengths();
    try_string_lengths();
    if (sort == STEP)
        return;
    try_group_depths();
    try_rooms();
}
