/* The reading of the second reader; peer.h says what it is for.
 *
 * "01" and "004" are the documents, and a number from 1 to 19 is a refusal of 01.
 */
#include <string.h>

#include "tokens.h"

/* ---- clean string data (004, section 2) */

/* Writes the one character that a surrogate pair stands for, in four bytes. */
static void write_pair(uint8_t *to, const uint8_t *s)
{
    const uint32_t high = (uint32_t)(s[1] & 0x0F) << 6 | (s[2] & 0x3F);
    const uint32_t low = (uint32_t)(s[4] & 0x0F) << 6 | (s[5] & 0x3F);
    const uint32_t code = 0x10000 + (high << 10 | low);

    to[0] = (uint8_t)(0xF0 | code >> 18);
    to[1] = (uint8_t)(0x80 | (code >> 12 & 0x3F));
    to[2] = (uint8_t)(0x80 | (code >> 6 & 0x3F));
    to[3] = (uint8_t)(0x80 | (code & 0x3F));
}

/* Copies string data that was measured before and holds CR before LF, or surrogate pairs, which take fewer bytes when clean. */
static void write_clean(uint8_t *to, const uint8_t *s, size_t input_len)
{
    size_t at = 0;

    while (at < input_len) {
        if (s[at] == CR) {
            at++;
        } else if (s[at] == 0xED && s[at + 1] >= 0xA0) {
            write_pair(to, s + at);
            to += 4;
            at += 6;
        } else {
            *to++ = s[at++];
        }
    }
}

/* ---- from tokens to entities (004, section 5) */

/* Puts an entity, which is known to fit, behind those that are held. Its text and data are already written. */
static inline void put(reader *r, const token *t, uint32_t kind, size_t text_len, size_t data_len, uint32_t count)
{
    uint32_t *const entity = r->list + VOGIEBURN_NUMBERS * r->entities;

    entity[0] = kind;
    entity[1] = (uint32_t)t->place;
    entity[2] = (uint32_t)r->text_held;
    entity[3] = (uint32_t)text_len;
    entity[4] = (uint32_t)data_len;
    entity[5] = count;
    r->text_held += text_len + data_len;
    r->entities++;
}

/* Looks whether a token's `own` entities fit, an inserted one before them, and their bytes of text and data: for each entity 18
 * before 19, and only the last has bytes. Nothing is written until all do, since a refused token leaves nothing (01, "Order"). */
static inline bool admit(reader *r, const token *t, size_t own, size_t bytes)
{
    const size_t wanted = own + (r->inserted ? 1 : 0);

    if (PEER_WRONG == 5 && bytes > r->text_room - r->text_held)
        return refuse(r, VOGIEBURN_TEXT_FULL, t->place);
    if (wanted > r->list_room - r->entities)
        return refuse(r, VOGIEBURN_LIST_FULL, t->place);
    if (bytes > r->text_room - r->text_held)
        return refuse(r, VOGIEBURN_TEXT_FULL, t->place);
    if (r->inserted)
        put(r, t, VOGIEBURN_BEGIN_GROUP, 0, 0, 0);
    return true;
}

/* Reports a token that is one entity without text. */
static bool report(reader *r, const token *t, uint32_t kind)
{
    if (!admit(r, t, 1, 0))
        return false;
    put(r, t, kind, 0, 0, 0);
    return true;
}

/* Reports a simple token that is one entity, with its bytes from `from` on as text: a name leaves its sign out. */
static inline bool report_text(reader *r, const token *t, uint32_t kind, size_t from)
{
    const size_t text_len = t->text_len - from;

    if (!admit(r, t, 1, text_len))
        return false;
    if (text_len > 0)
        memcpy(r->text + r->text_held, r->draft + t->place + from, text_len);
    put(r, t, kind, text_len, 0, 0);
    return true;
}

/* Reports a string: its prefix is the text. */
static bool report_string(reader *r, const token *t)
{
    const uint32_t quoted = r->metacommand ? VOGIEBURN_METACOMMAND_QUOTED : VOGIEBURN_QUOTED;
    const uint32_t curly = r->metacommand ? VOGIEBURN_METACOMMAND_CURLY : VOGIEBURN_CURLY;

    if (!admit(r, t, 1, t->text_len + t->data_len))
        return false;
    if (t->text_len > 0)
        memcpy(r->text + r->text_held, r->draft + t->place, t->text_len);
    if (t->data_len > 0) {
        uint8_t *const to = r->text + r->text_held + t->text_len;

        if (t->data_len == t->input_len)
            memcpy(to, r->draft + t->data_at, t->data_len);
        else
            write_clean(to, r->draft + t->data_at, t->input_len);
    }
    put(r, t, t->sort == QUOTED ? quoted : curly, t->text_len, t->data_len, 0);
    return true;
}

/* Opens a group, if 17 lets it: of an array's element `element`, or of none if that is 0. */
static bool open_group(reader *r, const token *t, uint16_t element)
{
    if (r->groups == GROUP_LIMIT)
        return refuse(r, VOGIEBURN_TOO_MANY_GROUPS, t->place);
    r->elements[r->groups++] = element;
    return true;
}

/* After `[` every token but `]` first brings a begin group, with a 17 and an 18 that come before what the token itself meets. */
static bool insert_group(reader *r, const token *t)
{
    r->inserted = r->array_begun && r->draft[t->place] != ']';
    if (!r->inserted)
        return true;
    r->array_begun = false;
    if (!open_group(r, t, 1))
        return false;
    if (PEER_WRONG == 1 && r->draft[t->place] == ',')
        r->inserted = false;
    return !r->inserted || r->entities < r->list_room || refuse(r, VOGIEBURN_LIST_FULL, t->place);
}

static bool begin_group(reader *r, const token *t)
{
    return open_group(r, t, 0) && report(r, t, VOGIEBURN_BEGIN_GROUP);
}

/* `)` needs the innermost open group to be one that `(` opened. */
static bool end_group(reader *r, const token *t)
{
    if (r->groups == 0 || r->elements[r->groups - 1] != 0)
        return refuse(r, VOGIEBURN_STRAY_PARENTHESIS, t->place);
    r->groups--;
    return report(r, t, VOGIEBURN_END_GROUP);
}

/* `[` reports nothing itself. */
static bool begin_array(reader *r, const token *t)
{
    r->array_begun = true;
    return admit(r, t, 0, 0);
}

/* `,` needs the innermost open group to be an element's own. It closes before it opens, so 17 is never met. */
static bool next_element(reader *r, const token *t)
{
    if (r->groups == 0 || r->elements[r->groups - 1] == 0)
        return refuse(r, VOGIEBURN_STRAY_COMMA, t->place);
    r->elements[r->groups - 1]++;
    if (!admit(r, t, 2, 0))
        return false;
    put(r, t, VOGIEBURN_END_GROUP, 0, 0, 0);
    put(r, t, VOGIEBURN_BEGIN_GROUP, 0, 0, 0);
    return true;
}

/* `]` ends the last element and its array; right after `[` the array is empty and there is no element to end. */
static bool end_array(reader *r, const token *t)
{
    uint32_t count;

    if (r->array_begun) {
        r->array_begun = false;
        return report(r, t, VOGIEBURN_ARRAY);
    }
    if (r->groups == 0 || r->elements[r->groups - 1] == 0)
        return refuse(r, VOGIEBURN_STRAY_BRACKET, t->place);
    count = r->elements[--r->groups];
    if (!admit(r, t, 2, 0))
        return false;
    put(r, t, VOGIEBURN_END_GROUP, 0, 0, 0);
    put(r, t, VOGIEBURN_ARRAY, 0, 0, count);
    return true;
}

/* The last token: 12 comes before 13. */
static bool end_draft(reader *r, const token *t)
{
    if (r->metacommand)
        return refuse(r, VOGIEBURN_END_IN_METACOMMAND, t->place);
    if (r->groups > 0)
        return refuse(r, VOGIEBURN_END_IN_GROUP, t->place);
    return report(r, t, VOGIEBURN_END);
}

/* A simple token in metacommand mode (004, 5.1). */
static bool handle_metacommand(reader *r, const token *t)
{
    switch (r->draft[t->place]) {
    case '%':
        return refuse(r, VOGIEBURN_METACOMMAND_INSIDE, t->place);
    case ';':
        r->metacommand = false;
        return report(r, t, VOGIEBURN_END_METACOMMAND);
    default:
        return report_text(r, t, VOGIEBURN_METACOMMAND_TOKEN, 0);
    }
}

/* A simple token in regular mode (004, 5.2 to 5.7). A lone `}` is an operation. */
static bool handle_regular(reader *r, const token *t)
{
    const uint8_t first = r->draft[t->place];

    switch (first) {
    case '%':
        r->metacommand = true;
        return report(r, t, VOGIEBURN_BEGIN_METACOMMAND);
    case ';': return refuse(r, VOGIEBURN_SEMICOLON_OUTSIDE, t->place);
    case '(': return begin_group(r, t);
    case ')': return end_group(r, t);
    case '[': return begin_array(r, t);
    case ',': return next_element(r, t);
    case ']': return end_array(r, t);
    case '?': return report_text(r, t, VOGIEBURN_DEFINE_VARIABLE, 1);
    case '@': return report_text(r, t, VOGIEBURN_DEFINE_CONSTANT, 1);
    case '=': return report_text(r, t, VOGIEBURN_GET, 1);
    case ':': return report_text(r, t, VOGIEBURN_PUT, 1);
    case '+':
    case '-': return report_text(r, t, VOGIEBURN_NUMBER, 0);
    default: return report_text(r, t, first >= '0' && first <= '9' ? VOGIEBURN_NUMBER : VOGIEBURN_OPERATION, 0);
    }
}

/* Judges a whole token and reports its entities: an inserted begin group first, then the token itself (01, "Order"). */
static bool handle_token(reader *r, const token *t)
{
    if (!insert_group(r, t))
        return false;
    switch (t->sort) {
    case LAST: return end_draft(r, t);
    case SIMPLE: return r->metacommand ? handle_metacommand(r, t) : handle_regular(r, t);
    case QUOTED:
    case CURLY: break;
    }
    return report_string(r, t);
}

vogieburn_answer peer_read(const uint8_t *draft, size_t draft_len, uint32_t *list, size_t list_len, uint8_t *text,
                           size_t text_len)
{
    reader r = {.draft = draft, .draft_len = draft_len, .list = list, .list_room = list_len / VOGIEBURN_NUMBERS, .text = text,
                .text_room = text_len};
    token t;

    if (draft_len > VOGIEBURN_DRAFT_LIMIT) {
        refuse(&r, VOGIEBURN_DRAFT_TOO_LONG, 0);
    } else {
        r.at = byte_order_mark_len(draft, draft_len);
        while (next_token(&r, &t) && handle_token(&r, &t) && t.sort != LAST)
            continue;
    }
    return (vogieburn_answer){.number = r.number, .place = r.place, .entities = r.entities, .text = r.text_held,
                              .consumed = r.number == 0 ? r.at : 0};
}
