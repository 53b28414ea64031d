/* The tail and the step of the second reader; peer.h says what they are for.
 *
 * "01" and "004" are the documents, and a number from 1 to 31 is a refusal of 01.
 */
#include "tokens.h"

/* A place as it is looked at: all of it. */
static uint64_t whole(uint64_t place)
{
    return PEER_WRONG == 32 ? (uint32_t)place : place;
}

/* ---- tail (01, "Order", and 004, 5.8) */

static size_t comment_len(const uint8_t *s, size_t left)
{
    size_t len = 0;

    while (len < left && s[len] != LF)
        len++;
    return len;
}

/* How many bytes the whitespace at `s` takes, where at least one byte is left; 0 if something else stands there. */
static size_t whitespace_len(const uint8_t *s, size_t left)
{
    const character c = next_character(s, left);

    if (PEER_WRONG == 18 && s[0] == '#')
        return comment_len(s, left);
    if (PEER_WRONG == 19 && c.refusal == VOGIEBURN_CR_WITHOUT_LF)
        return 1;
    if (PEER_WRONG == 23 && byte_order_mark_len(s, left) > 0)
        return byte_order_mark_len(s, left);
    return c.refusal == 0 && (class_of[c.byte] & SPACE) != 0 ? c.input_len : 0;
}

/* A place of a draft is one of its bytes, or its end. */
static bool is_past(uint64_t place, size_t draft_len)
{
    if (PEER_WRONG == 20)
        return place > draft_len + 1;
    return PEER_WRONG == 21 ? place >= draft_len : place > draft_len;
}

vogieburn_tail_answer peer_tail(const uint8_t *draft, size_t draft_len, uint64_t place)
{
    const bool past = is_past(whole(place), draft_len);
    size_t at, len;

    if (draft_len > VOGIEBURN_DRAFT_LIMIT && !(PEER_WRONG == 24 && past))
        return (vogieburn_tail_answer){.number = VOGIEBURN_DRAFT_TOO_LONG};
    if (past)
        return (vogieburn_tail_answer){.number = VOGIEBURN_PLACE_PAST_DRAFT};
    for (at = (size_t)whole(place); at < draft_len; at += len) {
        len = whitespace_len(draft + at, draft_len - at);
        if (len == 0)
            return (vogieburn_tail_answer){.place = PEER_WRONG == 22 ? draft_len : at};
    }
    return (vogieburn_tail_answer){.yes = 1};
}

/* ---- step (01, "The calls") */

/* Where the token is looked for. A place past the draft is its end, and at place 0 the draft begins and loses its mark. */
static size_t begin_at(const uint8_t *draft, size_t draft_len, uint64_t place)
{
    const size_t at = place < draft_len ? (size_t)place : draft_len;

    if (place == 0)
        return PEER_WRONG == 27 ? 0 : byte_order_mark_len(draft, draft_len);
    return PEER_WRONG == 28 ? at + byte_order_mark_len(draft + at, draft_len - at) : at;
}

/* After a refusal the answer is repeated, so the place reached is the one that was handed over. */
static vogieburn_token refused(uint64_t number, uint64_t at, uint64_t place)
{
    return (vogieburn_token){.number = number, .place = at, .next = PEER_WRONG == 26 ? place + 1 : place};
}

/* The token that was read up to `after`; behind `|;` its answer is repeated too. */
static vogieburn_token told(const token *t, size_t after, uint64_t place)
{
    vogieburn_token a = {.place = t->place, .after = after, .sort = t->sort, .next = after};

    if (t->sort == LAST && PEER_WRONG != 25)
        a.next = place;
    if (t->sort != LAST)
        a.prefix = t->text_len;
    if (t->sort == QUOTED || t->sort == CURLY)
        a.length = PEER_WRONG == 31 ? t->input_len : t->data_len;
    return a;
}

vogieburn_token peer_step(const uint8_t *draft, size_t draft_len, uint64_t place)
{
    reader r = {.draft = draft, .draft_len = draft_len};
    token t;

    if (draft_len > VOGIEBURN_DRAFT_LIMIT && PEER_WRONG != 29)
        return refused(VOGIEBURN_DRAFT_TOO_LONG, 0, place);
    r.at = begin_at(draft, draft_len, whole(place));
    if (next_token(&r, &t))
        return told(&t, r.at, place);
    return refused(r.number, PEER_WRONG == 30 && place > draft_len ? place : r.place, place);
}
