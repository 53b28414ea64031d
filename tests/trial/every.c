#include <stddef.h>
#include <string.h>

#include "draft.h"
#include "parts.h"
#include "places.h"
#include "table.h"
#include "tally.h"

/* What a sequence stands between. */
typedef struct {
    piece before, behind;
} surrounding;

/* The calls that are made with a draft. */
typedef void calls(const draft *);

/* Every sequence of up to `most` symbols, in each of the surroundings. */
typedef struct {
    const piece *symbols;
    size_t symbols_len, most;
    const surrounding *around;
    size_t around_len;
    calls *read;
} sequences;

static uint64_t drafts;
static const table *under; /* the table, if drafts are checked */
static enum sort asked;    /* a tail or a step, if drafts are asked at places */

/* ---- room */

/* More than any of these drafts needs. */
enum { ENTITIES = 20, TEXT = 40 };

/* One call with ample room, and now and then some numbers over. */
static void read_amply(const draft *d)
{
    begin_draft(drafts);
    hold(d, under, ENTITIES * VOGIEBURN_NUMBERS + drafts % VOGIEBURN_NUMBERS, TEXT);
    drafts++;
}

/* A call with every room that is too small for the draft, and with the one that is not. */
static void read_with_each_room(const draft *d)
{
    vogieburn_answer most;

    begin_draft(drafts++);
    most = hold(d, under, ENTITIES * VOGIEBURN_NUMBERS, TEXT);
    for (size_t entities = 0; entities <= most.entities; entities++)
        for (size_t text = 0; text <= most.text; text++)
            hold(d, under, entities * VOGIEBURN_NUMBERS + (entities + text) % VOGIEBURN_NUMBERS, text);
}

/* ---- places */

static void ask_each_place(const draft *d)
{
    begin_draft(drafts);
    ask_everywhere(asked, d, drafts);
    drafts++;
}

/* ---- sequences */

/* Each byte as a symbol of its own. */
static void split(const char *bytes, size_t len, piece *symbols)
{
    for (size_t i = 0; i < len; i++)
        symbols[i] = (piece){bytes + i, 1};
}

/* Reads the draft's sequence, and all that begin with it and have up to `left` symbols more. */
static void read_from(const sequences *s, const surrounding *around, draft *d, size_t left)
{
    const size_t len = d->len;

    put(d, around->behind);
    s->read(d);
    for (size_t i = 0; left > 0 && i < s->symbols_len; i++) {
        d->len = len;
        put(d, s->symbols[i]);
        read_from(s, around, d, left - 1);
    }
}

static void read_sequences(const char *name, const sequences *s)
{
    static draft d;

    begin_part(name);
    drafts = 0;
    for (size_t i = 0; i < s->around_len; i++) {
        d.len = 0;
        put(&d, s->around[i].before);
        read_from(s, &s->around[i], &d, s->most);
    }
}

/* ---- symbols */

/* What reading tells apart: the atomic characters, what else begins or ends something, a word's, two numbers' and two names'
 * first character, the white characters, CR, nul, and two bytes that are a character only together. */
static const char marks[] = "()[],%;\"{}|#\\a1+?= \t\n\r\0\xC3\xA9";

/* A byte order mark, and two surrogates that are a character only together. */
static const piece triples[] = {PIECE("\xEF\xBB\xBF"), PIECE("\xED\xA0\xBD"), PIECE("\xED\xB8\x80")};

/* Bare, and before the last token. */
static const surrounding bare[] = {{PIECE(""), PIECE("")}, {PIECE(""), PIECE(" |;")}};

static void try_symbols(const char *name, size_t most, const surrounding *around, size_t around_len, calls *made)
{
    static piece symbols[sizeof marks - 1 + COUNT(triples)];
    const sequences all = {symbols, COUNT(symbols), most, around, around_len, made};

    split(marks, sizeof marks - 1, symbols);
    memcpy(symbols + sizeof marks - 1, triples, sizeof triples);
    read_sequences(name, &all);
}

/* Fewer symbols, and more of them in a draft: what opens and closes groups, arrays and metacommands. */
static void try_nesting(const char *name, size_t most, calls *made)
{
    static const char of_groups[] = "()[],%;a";
    static piece groups[sizeof of_groups - 1];
    const sequences nested = {groups, COUNT(groups), most, &bare[1], 1, made};

    split(of_groups, COUNT(groups), groups);
    read_sequences(name, &nested);
}

/* What strings end by, and what escapes it. */
static void try_strings(const char *name, size_t most, calls *made)
{
    static const char of_strings[] = "\"{}\\a";
    static const surrounding strings[] = {{PIECE("p\""), PIECE("\" |;")}, {PIECE("{"), PIECE("} |;")}};
    static piece escapes[sizeof of_strings - 1];
    const sequences escaped = {escapes, COUNT(escapes), most, strings, COUNT(strings), made};

    split(of_strings, COUNT(escapes), escapes);
    read_sequences(name, &escaped);
}

/* ---- bytes */

static void try_bytes(const char *name, size_t most, calls *made)
{
    static const surrounding around[] = {
        {PIECE(""), PIECE(" |;")},    {PIECE("\""), PIECE("\" |;")}, {PIECE("{"), PIECE("} |;")},
        {PIECE("#"), PIECE("\n |;")}, {PIECE("%"), PIECE("; |;")},   {PIECE("["), PIECE("] |;")},
    };
    static char bytes[256];
    static piece each[256];
    const sequences all = {each, COUNT(each), most, around, COUNT(around), made};

    for (size_t i = 0; i < sizeof bytes; i++)
        bytes[i] = (char)(unsigned char)i;
    split(bytes, sizeof bytes, each);
    read_sequences(name, &all);
}

/* ---- UTF-8 */

/* The first and the last byte of each range that the table of RFC 3629, section 4, or a surrogate's second byte tells apart. */
static const char utf8_bytes[] = "\x00\x01\x7F\x80\x8F\x90\x9F\xA0\xAF\xB0\xBF\xC0\xC1\xC2\xDF"
                                 "\xE0\xE1\xEC\xED\xEE\xEF\xF0\xF1\xF3\xF4\xF5\xFF";

/* Inside a string, inside a comment and bare; each also right behind a high surrogate, and right before a low one. */
static void try_utf8(const char *name, size_t most, calls *made)
{
    static const surrounding around[] = {
        {PIECE("\""), PIECE("\" |;")},
        {PIECE("#"), PIECE("\n |;")},
        {PIECE(""), PIECE(" |;")},
        {PIECE("\"\xED\xA0\x80"), PIECE("\" |;")},
        {PIECE("#\xED\xA0\x80"), PIECE("\n |;")},
        {PIECE("\xED\xA0\x80"), PIECE(" |;")},
        {PIECE("\""), PIECE("\xED\xB0\x80\" |;")},
        {PIECE("#"), PIECE("\xED\xB0\x80\n |;")},
        {PIECE(""), PIECE("\xED\xB0\x80 |;")},
    };
    static piece each[sizeof utf8_bytes - 1];
    const sequences all = {each, COUNT(each), most, around, COUNT(around), made};

    split(utf8_bytes, COUNT(each), each);
    read_sequences(name, &all);
}

/* ---- checks */

/* What the check tells apart under the table below: literals, groups and arrays, a metacommand, two names, one of them empty, and
 * operations, of which the first is named as a variable is and the last is unknown. */
static const piece of_checks[] = {
    PIECE("1 "),  PIECE("\"\""), PIECE("("),   PIECE(")"),   PIECE("["),  PIECE(","),  PIECE("]"),
    PIECE("[]"),  PIECE("%;"),   PIECE("?a "), PIECE("=a "), PIECE(":a "), PIECE("@ "), PIECE("= "),
    PIECE(": "),  PIECE("a "),   PIECE("b "),  PIECE("c "),  PIECE("d "),
};

static const operation operations[] = {
    {PIECE("a"), PIECE("\x10"), PIECE("\2")},
    {PIECE("b"), PIECE("\0\1"), PIECE("\1\0")},
    {PIECE("c"), PIECE("\2\x11"), PIECE("")},
};

void try_every_check(bool short_form)
{
    static table t;
    const sequences all = {of_checks, COUNT(of_checks), short_form ? 4 : 5, &bare[1], 1, read_amply};
    const sequences few = {of_checks, COUNT(of_checks), short_form ? 2 : 3, &bare[1], 1, read_with_each_room};

    put_operations(&t, operations, COUNT(operations));
    under = &t;
    read_sequences(short_form ? "every check of up to 4 symbols" : "every check of up to 5 symbols", &all);
    read_sequences(short_form ? "up to 2 symbols, checked with every room" : "up to 3 symbols, checked with every room", &few);
}

/* ---- whitespace */

/* Whitespace, what of it is none alone, what may be taken for it, and what ends it. */
static const piece of_tails[] = {
    PIECE("\t"),   PIECE(" "),    PIECE("\n"),           PIECE("\r"),           PIECE("\r\n"), PIECE("#"),        PIECE("a"),
    PIECE("\0"),   PIECE("\v"),   PIECE("\f"),           PIECE("\x7F"),         PIECE("\x85"), PIECE("\xC2\xA0"), PIECE("|;"),
    PIECE("\xEF"), PIECE("\xBB"), PIECE("\xEF\xBB\xBF"), PIECE("\xE2\x80\xA8"),
};

static void try_whitespace(const char *name, size_t most, calls *made)
{
    static const surrounding around[] = {{PIECE(""), PIECE("")}, {PIECE("|;"), PIECE(" \r\n\t")}};
    const sequences all = {of_tails, COUNT(of_tails), most, around, COUNT(around), made};

    read_sequences(name, &all);
}

/* ---- the parts */

void try_every_draft(bool short_form)
{
    const size_t less = short_form ? 1 : 0;

    under = NULL;
    try_symbols(short_form ? "every draft of up to 4 symbols" : "every draft of up to 5 symbols", 5 - less, bare, COUNT(bare),
                read_amply);
    try_symbols(short_form ? "up to 3 symbols, with every room" : "up to 4 symbols, with every room", 4 - less, &bare[1], 1,
                read_with_each_room);
    try_nesting(short_form ? "up to 6 marks of groups" : "up to 7 marks of groups", 7 - less, read_amply);
    try_strings(short_form ? "up to 6 marks of strings" : "up to 8 marks of strings", 8 - 2 * less, read_amply);
    try_bytes("up to 2 bytes of all", 2, read_amply);
    try_utf8(short_form ? "up to 3 bytes that UTF-8 tells apart" : "up to 4 bytes that UTF-8 tells apart", 4 - less, read_amply);
}

void try_every_tail(bool short_form)
{
    asked = TAIL;
    try_whitespace(short_form ? "tails everywhere in up to 3 symbols" : "tails everywhere in up to 4 symbols", short_form ? 3 : 4,
                   ask_each_place);
    try_bytes(short_form ? "tails everywhere in 1 byte of all" : "tails everywhere in up to 2 bytes of all", short_form ? 1 : 2,
              ask_each_place);
}

void try_every_step(bool short_form)
{
    asked = STEP;
    try_symbols(short_form ? "steps everywhere in up to 3 symbols" : "steps everywhere in up to 4 symbols", short_form ? 3 : 4, bare,
                COUNT(bare), ask_each_place);
    try_strings(short_form ? "steps everywhere in up to 5 marks of strings" : "steps everywhere in up to 7 marks of strings",
                short_form ? 5 : 7, ask_each_place);
    try_bytes(short_form ? "steps everywhere in 1 byte of all" : "steps everywhere in up to 2 bytes of all", short_form ? 1 : 2,
              ask_each_place);
    try_utf8(short_form ? "steps everywhere in up to 2 bytes of UTF-8" : "steps everywhere in up to 3 bytes of UTF-8",
             short_form ? 2 : 3, ask_each_place);
}
