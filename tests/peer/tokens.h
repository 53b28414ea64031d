/* The second reader's characters and tokens, which its reading and its step both go through; peer.h says what it is for.
 *
 * "01" and "004" are the documents, and a number from 1 to 9 is a refusal of 01.
 */
#ifndef PEER_TOKENS_H
#define PEER_TOKENS_H

#include <stdbool.h>

#include "peer.h"

/* The limits of 8, 9 and 17 (01, "Numbers of refusal"). */
enum { TOKEN_LIMIT = 255, DATA_LIMIT = 4096, GROUP_LIMIT = 64 };

enum { LF = 0x0A, CR = 0x0D };

/* What a byte is where it stands for a whole character (004, 3.1). Nul, CR and the bytes from 80 hex up are none of these and go
 * to next_character. */
enum {
    SPACE = 1,      /* whitespace */
    ORDINARY = 2,   /* begins a token that can go on, and goes on with it */
    EXCLUSIVE = 4,  /* ends a token and is left out */
    IN_COMMENT = 8, /* does nothing in a comment */
    IN_QUOTED = 16, /* is nothing but data in a quoted string */
    IN_CURLY = 32,  /* the same in a curly string */
    IN_STRINGS = IN_QUOTED | IN_CURLY,
    ANYWHERE = IN_COMMENT | IN_STRINGS
};

/* The cells of the table of classes. */
enum {
    xx = 0,
    ct = ANYWHERE,                          /* control characters */
    sp = ANYWHERE | SPACE | EXCLUSIVE,      /* HT SP */
    lf = IN_STRINGS | SPACE | EXCLUSIVE,    /* LF */
    ex = ANYWHERE | EXCLUSIVE,              /* ( ) [ ] , % ; # */
    vi = ANYWHERE | ORDINARY,               /* all other visible US-ASCII characters */
    bs = IN_COMMENT | ORDINARY,             /* the backslash */
    qu = IN_COMMENT | IN_CURLY,             /* the quote */
    oc = IN_COMMENT | IN_QUOTED,            /* { */
    cc = IN_COMMENT | IN_QUOTED | EXCLUSIVE /* } */
};

static const uint8_t class_of[256] = {
    xx, ct, ct, ct, ct, ct, ct, ct, ct, sp, lf, ct, ct, xx, ct, ct, /* 00 */
    ct, ct, ct, ct, ct, ct, ct, ct, ct, ct, ct, ct, ct, ct, ct, ct, /* 10 */
    sp, vi, qu, ex, vi, ex, vi, vi, ex, ex, vi, vi, ex, vi, vi, vi, /* 20 */
    vi, vi, vi, vi, vi, vi, vi, vi, vi, vi, vi, ex, vi, vi, vi, vi, /* 30 */
    vi, vi, vi, vi, vi, vi, vi, vi, vi, vi, vi, vi, vi, vi, vi, vi, /* 40 */
    vi, vi, vi, vi, vi, vi, vi, vi, vi, vi, vi, ex, bs, ex, vi, vi, /* 50 */
    vi, vi, vi, vi, vi, vi, vi, vi, vi, vi, vi, vi, vi, vi, vi, vi, /* 60 */
    vi, vi, vi, vi, vi, vi, vi, vi, vi, vi, vi, oc, vi, cc, vi, ct  /* 70, and xx from 80 up */
};

/* Reading, as far as it has come. A step takes no more of it than tokens need. */
typedef struct {
    const uint8_t *draft;
    size_t draft_len;
    size_t at; /* the byte that is read next */
    uint32_t *list;
    size_t list_room; /* entities */
    size_t entities;  /* held */
    uint8_t *text;
    size_t text_room;
    size_t text_held;
    size_t groups;                  /* open */
    uint16_t elements[GROUP_LIMIT]; /* of each open group: which element of its array it is, from 1; 0 if `(` opened it */
    bool metacommand;               /* metacommand mode (004, 5.1) */
    bool array_begun;               /* the token before was `[` */
    bool inserted;                  /* the token's entities begin with an inserted begin group */
    uint32_t number;                /* of a refusal, and its place; 0 if there is none */
    size_t place;
} reader;

enum sort { SIMPLE, QUOTED, CURLY, LAST };

/* A token: `text_len` bytes of a simple token, or of a prefix, begin at `place`. */
typedef struct {
    enum sort sort;
    size_t place;
    size_t text_len;
    size_t data_at; /* a string's data in the draft, and its length there and when clean */
    size_t input_len;
    size_t data_len;
} token;

/* Notes a refusal. The answer is false, for the caller to hand on. */
static bool refuse(reader *r, uint32_t number, size_t place)
{
    r->number = number;
    r->place = place;
    return false;
}

/* ---- from bytes to characters (004, section 2) */

/* A character, or the refusal from 2 to 5 met in its place. */
typedef struct {
    uint8_t refusal;
    uint8_t byte;      /* its first clean byte: all of it if below 80 hex */
    uint8_t input_len; /* how many bytes of the draft it takes */
    uint8_t clean_len; /* and how many when clean */
} character;

static inline bool continues(uint8_t byte)
{
    return (byte & 0xC0) == 0x80;
}

/* How long the sequence is that begins with a byte from 80 hex up; 0 if it is malformed (RFC 3629, section 4, but for surrogates,
 * which are let through). */
static inline uint8_t sequence_len(const uint8_t *s, size_t left)
{
    if (s[0] < 0xC2 || s[0] > 0xF4 || left < 2 || !continues(s[1]))
        return 0;
    if (s[0] < 0xE0)
        return 2;
    if (left < 3 || !continues(s[2]))
        return 0;
    if (s[0] < 0xF0)
        return s[0] == 0xE0 && s[1] < 0xA0 ? 0 : 3;
    if (left < 4 || !continues(s[3]))
        return 0;
    return (s[0] == 0xF0 && s[1] < 0x90) || (s[0] == 0xF4 && s[1] > 0x8F) ? 0 : 4;
}

/* A whole surrogate stands at `s`. Only a high one with a low one right behind it is a character; a high one before anything
 * else, malformed bytes included, is 3, and so is a low one (01, "From bytes to characters"). */
static character surrogate(const uint8_t *s, size_t left)
{
    if (s[1] < 0xB0 && left >= 6 && s[3] == 0xED && s[4] >= 0xB0 && continues(s[4]) && continues(s[5]))
        return (character){.byte = 0xF0, .input_len = 6, .clean_len = 4};
    if (PEER_WRONG == 4 && s[1] < 0xB0 && left > 3 && s[3] >= 0x80 && sequence_len(s + 3, left - 3) == 0)
        return (character){.refusal = VOGIEBURN_MALFORMED};
    return (character){.refusal = VOGIEBURN_UNPAIRED_SURROGATE};
}

/* The character at `s`, where at least one byte is left. */
static inline character next_character(const uint8_t *s, size_t left)
{
    uint8_t len;

    if (s[0] == 0)
        return (character){.refusal = VOGIEBURN_NUL};
    if (s[0] == CR) {
        if (left > 1 && s[1] == LF)
            return (character){.byte = LF, .input_len = 2, .clean_len = 1};
        return (character){.refusal = VOGIEBURN_CR_WITHOUT_LF};
    }
    if (s[0] < 0x80)
        return (character){.byte = s[0], .input_len = 1, .clean_len = 1};
    len = sequence_len(s, left);
    if (len == 0)
        return (character){.refusal = VOGIEBURN_MALFORMED};
    if (s[0] == 0xED && s[1] >= 0xA0)
        return surrogate(s, left);
    return (character){.byte = s[0], .input_len = len, .clean_len = len};
}

/* A draft that begins with a byte order mark loses it, once. */
static size_t byte_order_mark_len(const uint8_t *draft, size_t draft_len)
{
    return draft_len >= 3 && draft[0] == 0xEF && draft[1] == 0xBB && draft[2] == 0xBF ? 3 : 0;
}

/* ---- from characters to tokens (004, section 3) */

/* The end of the draft ends no token, no comment and no string. */
static bool draft_ends(reader *r)
{
    return refuse(r, VOGIEBURN_DRAFT_ENDS, r->draft_len);
}

/* Goes from `at` over what does nothing but stand there: bytes of the class `plain`, and characters of more bytes that are no
 * surrogates. Whatever is not plainly that, or does not end by `stop`, is left to next_character. */
static size_t skip_plain(const uint8_t *draft, size_t at, size_t stop, uint8_t plain)
{
    for (;;) {
        uint8_t len;

        while (at < stop && (class_of[draft[at]] & plain) != 0)
            at++;
        if (at == stop || draft[at] < 0x80 || draft[at] == 0xED)
            return at;
        len = sequence_len(draft + at, stop - at);
        if (len == 0)
            return at;
        at += len;
    }
}

/* Skips a comment up to the LF that ends it; 2 to 5 hold here too, 6 does not. */
static bool skip_comment(reader *r)
{
    size_t at = r->at;

    for (;;) {
        character c;

        at = skip_plain(r->draft, at, r->draft_len, IN_COMMENT);
        if (at == r->draft_len)
            return draft_ends(r);
        c = next_character(r->draft + at, r->draft_len - at);
        if (c.refusal != 0)
            return refuse(r, c.refusal, at);
        if (c.byte == LF)
            break;
        at += c.input_len;
    }
    r->at = at;
    return true;
}

/* A byte that is neither visible US-ASCII nor whitespace stands outside comments and strings. Only the CR of a CR before LF may;
 * anything else is refused here, with 2 to 5 before 6 (01, "Order"). */
static bool is_line_break(reader *r, size_t at)
{
    const character c = next_character(r->draft + at, r->draft_len - at);

    if (c.refusal != 0)
        return refuse(r, c.refusal, at);
    return c.byte == LF || refuse(r, VOGIEBURN_ILLEGAL_CHARACTER, at);
}

/* Goes to the first character of the next token (004, 3.2, step 1). */
static bool skip_to_token(reader *r)
{
    for (;;) {
        size_t at = r->at;

        while (at < r->draft_len && (class_of[r->draft[at]] & SPACE) != 0)
            at++;
        r->at = at;
        if (at == r->draft_len)
            return draft_ends(r);
        if (r->draft[at] == '#') {
            if (!skip_comment(r))
                return false;
        } else if (r->draft[at] >= 0x21 && r->draft[at] <= 0x7E) {
            return true;
        } else {
            if (!is_line_break(r, at))
                return false;
            r->at = at + 2;
        }
    }
}

/* Whether a quote, or a curly, that is not escaped closes the string; curlies change the nesting level (004, 3.3). */
static bool closes(enum sort sort, uint8_t byte, size_t *level)
{
    if (sort == QUOTED)
        return byte == '"';
    if (byte == '{')
        ++*level;
    else if (byte == '}')
        --*level;
    return *level == 0;
}

/* Reads string data and the character that closes it. The data is only measured: whether it is written is not known yet. */
static bool read_data(reader *r, token *t, size_t data_at)
{
    const uint8_t *const draft = r->draft;
    const size_t draft_len = r->draft_len;
    const uint8_t plain = t->sort == QUOTED ? IN_QUOTED : IN_CURLY;
    size_t at = data_at, data_len = 0, level = 1;
    bool escaped = false; /* an odd run of backslashes stands before `at` */

    for (;;) {
        const size_t from = at, room = DATA_LIMIT - data_len;
        const size_t stop = draft_len - at > room ? at + room : draft_len;
        character c;

        at = skip_plain(draft, at, stop, plain);
        data_len += at - from;
        escaped = escaped && at == from;
        if (at == draft_len)
            return draft_ends(r);
        c = next_character(draft + at, draft_len - at);
        if (c.refusal != 0)
            return refuse(r, c.refusal, at);
        if (!escaped && closes(t->sort, c.byte, &level))
            break;
        data_len += c.clean_len;
        if (data_len > DATA_LIMIT)
            return refuse(r, VOGIEBURN_STRING_TOO_LONG, at);
        escaped = c.byte == '\\' && (!escaped || PEER_WRONG == 2);
        at += c.input_len;
    }
    t->data_at = data_at;
    t->input_len = at - data_at;
    t->data_len = data_len;
    r->at = at + 1;
    return true;
}

/* A quote or an open curly at `at` ends the token that began at t->place; what stands between is the prefix. */
static bool read_string(reader *r, token *t, size_t at)
{
    t->sort = r->draft[at] == '"' ? QUOTED : CURLY;
    t->text_len = at - t->place;
    return read_data(r, t, at + 1);
}

/* Reads a token that an ordinary character begins. The character that ends it is looked at before the token is judged, so that
 * its 2 to 8 come first (01, "Order"). */
static bool read_ordinary(reader *r, token *t)
{
    const uint8_t *const draft = r->draft;
    const size_t stop = r->draft_len - t->place > TOKEN_LIMIT ? t->place + TOKEN_LIMIT : r->draft_len;
    size_t at = t->place + 1;

    while (at < stop && (class_of[draft[at]] & ORDINARY) != 0)
        at++;
    if (at == r->draft_len)
        return draft_ends(r);
    if ((class_of[draft[at]] & ORDINARY) != 0)
        return refuse(r, VOGIEBURN_TOKEN_TOO_LONG, at);
    if (draft[at] == '"' || draft[at] == '{')
        return read_string(r, t, at);
    if ((class_of[draft[at]] & EXCLUSIVE) == 0 && !is_line_break(r, at))
        return false;
    if (PEER_WRONG == 3 && draft[at] == ';' && draft[at - 1] == '|')
        at--;
    t->sort = SIMPLE;
    t->text_len = at - t->place;
    r->at = at;
    return true;
}

/* Reads the next token (004, 3.2). */
static bool next_token(reader *r, token *t)
{
    uint8_t first;

    if (!skip_to_token(r))
        return false;
    t->place = r->at;
    first = r->draft[t->place];
    if (first == '|' && r->draft_len - t->place > 1 && r->draft[t->place + 1] == ';') {
        t->sort = LAST;
        r->at = t->place + 2;
        return true;
    }
    if ((class_of[first] & ORDINARY) != 0)
        return read_ordinary(r, t);
    if (first == '"' || first == '{')
        return read_string(r, t, t->place);
    t->sort = SIMPLE;
    t->text_len = 1;
    r->at = t->place + 1;
    return true;
}

#endif
