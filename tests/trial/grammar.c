#include "grammar.h"

#define PICK(lots, array) ((array)[below(lots, COUNT(array))])

/* Groups and arrays drawn inside each other, if not by `deep`. */
enum { NESTED = 6 };

/* ---- between tokens */

void put_white(lots *l, draft *d)
{
    static const piece whites[] = {PIECE(" "), PIECE(" "), PIECE(" "), PIECE("\n"), PIECE("\r\n"), PIECE("\t")};

    put(d, PICK(l, whites));
}

/* One character with more than one byte. The ends of each range come as often as all others. */
static void wide(lots *l, draft *d)
{
    static const uint32_t ends[] = {0x80, 0x7FF, 0x800, 0xD7FF, 0xE000, 0xFEFF, 0xFFFF, 0x10000, 0x10FFFF};
    static const uint32_t from[] = {0x80, 0x800, 0xE000, 0x10000}, to[] = {0x800, 0xD800, 0x10000, 0x110000};
    const size_t range = below(l, COUNT(from));

    if (one_in(l, 4)) {
        put_character(d, 0xD800 + (uint32_t)below(l, 0x400));
        put_character(d, 0xDC00 + (uint32_t)below(l, 0x400));
    } else if (one_in(l, 2)) {
        put_character(d, PICK(l, ends));
    } else {
        put_character(d, from[range] + (uint32_t)below(l, to[range] - from[range]));
    }
}

/* A character of a comment or a string that neither ends nor escapes anything. */
static void character(lots *l, draft *d)
{
    static const char others[] = "\x01\t\x1B\x7F|;#%,()[]' ?";

    if (one_in(l, 5))
        wide(l, d);
    else if (one_in(l, 5))
        put_byte(d, (unsigned char)others[below(l, sizeof others - 1)]);
    else
        put_byte(d, 'a' + (unsigned)below(l, 26));
}

static void comment(lots *l, draft *d)
{
    put_byte(d, '#');
    for (size_t n = below(l, 12); n > 0; n--)
        character(l, d);
    if (one_in(l, 4))
        put(d, (piece)PIECE("\"{\\"));
    put(d, one_in(l, 2) ? (piece)PIECE("\n") : (piece)PIECE("\r\n"));
}

void put_gap(lots *l, draft *d)
{
    do {
        if (one_in(l, 8))
            comment(l, d);
        else
            put_white(l, d);
    } while (one_in(l, 4));
}

/* ---- tokens */

/* Visible characters that end no token. A bar may stand among them, and is the last token if a semicolon happens to follow. */
static void word(lots *l, draft *d, size_t len)
{
    static const char plain[] = "abcdefghijklmnopqrstuvwxyzABCXYZ0123456789!$&'*+-./:<=>?@\\^_`|~";

    for (; len > 0; len--)
        put_byte(d, (unsigned char)plain[below(l, sizeof plain - 1)]);
}

/* Few bytes, or about as many as a token may have. */
static size_t word_len(lots *l)
{
    return one_in(l, 300) ? 250 + below(l, 10) : below(l, 7);
}

/* A number, a name or an operation. */
static void simple(lots *l, draft *d)
{
    static const char firsts[] = "+-0123456789?@=:?@=:";

    if (one_in(l, 2))
        put_byte(d, (unsigned char)firsts[below(l, sizeof firsts - 1)]);
    else
        put_byte(d, 'a' + (unsigned)below(l, 26));
    word(l, d, word_len(l));
}

/* Characters of string data, with escapes, and curlies that may nest in curly data and mean nothing in quoted data. */
static void data(lots *l, draft *d, size_t len, size_t nested)
{
    static const piece escapes[] = {PIECE("\\\\"), PIECE("\\\""), PIECE("\\{"), PIECE("\\}"), PIECE("\\\\\\\""), PIECE("\\n")};

    for (; len > 0; len--)
        if (one_in(l, 8)) {
            put(d, PICK(l, escapes));
        } else if (nested < NESTED && one_in(l, 12)) {
            put_byte(d, '{');
            data(l, d, below(l, 4), nested + 1);
            put_byte(d, '}');
        } else if (one_in(l, 16)) {
            put(d, one_in(l, 2) ? (piece)PIECE("\r\n") : (piece)PIECE("\n"));
        } else {
            character(l, d);
        }
}

/* A few characters, or about as many bytes as string data may have. */
void put_string(lots *l, draft *d)
{
    const bool curly = one_in(l, 2);

    if (one_in(l, 2))
        word(l, d, word_len(l));
    put_byte(d, curly ? '{' : '"');
    if (one_in(l, 2000))
        put_many(d, 'm', 4080 + below(l, 20));
    data(l, d, below(l, 10), 0);
    if (one_in(l, 6))
        put_byte(d, curly ? '"' : "{}"[below(l, 2)]);
    put_byte(d, curly ? '}' : '"');
}

/* ---- what tokens make up */

static void items(lots *l, draft *d, size_t nested);

void put_metacommand(lots *l, draft *d)
{
    static const char atoms[] = "()[],}";

    put_byte(d, '%');
    for (size_t n = below(l, 5); n > 0; n--)
        if (one_in(l, 3)) {
            put_string(l, d);
        } else if (one_in(l, 4)) {
            put_byte(d, (unsigned char)atoms[below(l, sizeof atoms - 1)]);
        } else {
            simple(l, d);
            put_white(l, d);
        }
    put_byte(d, ';');
}

static void array(lots *l, draft *d, size_t nested)
{
    put_byte(d, '[');
    if (!one_in(l, 4))
        items(l, d, nested + 1);
    while (one_in(l, 2)) {
        put_byte(d, ',');
        items(l, d, nested + 1);
    }
    put_byte(d, ']');
}

static void item(lots *l, draft *d, size_t nested)
{
    const size_t sort = below(l, 12);

    if (sort < 5) {
        simple(l, d);
        if (!one_in(l, 8))
            put_gap(l, d);
    } else if (sort < 8) {
        put_string(l, d);
    } else if (sort == 8) {
        put_metacommand(l, d);
    } else if (sort == 9) {
        put_byte(d, '}');
    } else if (nested < NESTED && sort == 10) {
        put_byte(d, '(');
        items(l, d, nested + 1);
        put_byte(d, ')');
    } else if (nested < NESTED) {
        array(l, d, nested);
    }
}

static void items(lots *l, draft *d, size_t nested)
{
    for (size_t n = below(l, 4); n > 0; n--) {
        item(l, d, nested);
        if (one_in(l, 4))
            put_gap(l, d);
    }
}

/* About as many open groups as there may be, some of them an array's elements, closed again. */
static void deep(lots *l, draft *d)
{
    char closing[80];
    const size_t depth = 58 + below(l, 10), arrays = below(l, 3);

    for (size_t i = 0; i < depth; i++) {
        const bool is_array = arrays == 1 || (arrays == 2 && one_in(l, 2));

        put_byte(d, is_array ? '[' : '(');
        closing[i] = is_array ? ']' : ')';
        if (one_in(l, 16))
            put(d, is_array ? (piece)PIECE(",") : (piece)PIECE("x "));
    }
    items(l, d, NESTED);
    for (size_t i = depth; i > 0; i--)
        put_byte(d, (unsigned char)closing[i - 1]);
}

void make_draft(lots *l, draft *d)
{
    d->len = 0;
    if (one_in(l, 8))
        put(d, (piece)PIECE("\xEF\xBB\xBF"));
    if (one_in(l, 40))
        deep(l, d);
    for (size_t n = below(l, 9); n > 0; n--)
        items(l, d, 0);
    put_gap(l, d);
    put(d, (piece)PIECE("|;"));
    for (size_t n = one_in(l, 4) ? below(l, 6) : 0; n > 0; n--)
        put_byte(d, (unsigned)below(l, 256));
}

/* ---- damage */

/* Any byte, but most often one that means something. */
static unsigned meaning(lots *l)
{
    static const char marks[] = "()[],%;\"{}|#\\?1a \t\n";
    static const uint8_t others[] = {0,    '\r', 0x7F, 0x80, 0x8F, 0x90, 0x9F, 0xA0, 0xAF, 0xB0, 0xBF, 0xC0,
                                     0xC1, 0xC2, 0xE0, 0xE1, 0xED, 0xEF, 0xF0, 0xF1, 0xF4, 0xF5, 0xFF};

    if (one_in(l, 12))
        return (unsigned)below(l, 256);
    return one_in(l, 4) ? PICK(l, others) : (unsigned char)marks[below(l, sizeof marks - 1)];
}

/* Puts `len` bytes in the place of `count` bytes from `at` on. */
static void replace(draft *d, size_t at, size_t count, const uint8_t *bytes, size_t len)
{
    static draft tail;

    tail.len = 0;
    put_bytes(&tail, d->bytes + at + count, d->len - at - count);
    d->len = at;
    put_bytes(d, bytes, len);
    put_bytes(d, tail.bytes, tail.len);
}

/* Puts in a few bytes that stand elsewhere in the draft. */
static void repeat(lots *l, draft *d, size_t at)
{
    uint8_t bytes[8];
    const size_t len = d->len < sizeof bytes ? d->len : 1 + below(l, sizeof bytes);

    memcpy(bytes, d->bytes + below(l, d->len - len + 1), len);
    replace(d, at, 0, bytes, len);
}

void damage_draft(lots *l, draft *d)
{
    do {
        const size_t at = below(l, d->len + 1), rest = d->len - at, few = 1 + below(l, 3);
        const uint8_t bytes[] = {(uint8_t)meaning(l), (uint8_t)meaning(l), (uint8_t)meaning(l)};

        switch (below(l, 10)) {
        case 0: d->len = at; break;
        case 1:
        case 2:
        case 3: replace(d, at, few < rest ? few : rest, bytes, 0); break;
        case 4:
        case 5: replace(d, at, 0, bytes, few); break;
        case 6: repeat(l, d, at); break;
        default: replace(d, at, rest > 0 ? 1 : 0, bytes, 1); break;
        }
    } while (one_in(l, 3));
}
