#include "shrink.h"

#include <string.h>

/* Drafts at the greatest lengths take long to read, and have few bytes that can go: past so many bytes read, what there is will
 * do. */
enum { EFFORT = 1 << 25 };

static mismatch tried;
static size_t effort;

static bool spent(void)
{
    return effort > EFFORT;
}

/* Takes the call that is being tried, if it too is answered differently. */
static bool smaller(mismatch *m)
{
    const call c = call_of(&tried);

    effort += tried.draft.len + tried.table.len + 1;
    if (spent() || same(&c, &tried.v))
        return false;
    *m = tried;
    return true;
}

/* Takes `count` bytes out of others. */
static void cut(uint8_t *bytes, size_t *len, size_t at, size_t count)
{
    memmove(bytes + at, bytes + at + count, *len - at - count);
    *len -= count;
}

/* Takes bytes out of the draft. A place behind them stays before the byte that it was before. */
static void cut_draft(mismatch *m, size_t at, size_t count)
{
    cut(m->draft.bytes, &m->draft.len, at, count);
    if (m->place > at)
        m->place -= m->place - at < count ? m->place - at : count;
}

/* Pieces of half the draft go first, then of a quarter, and so on down to single bytes. */
static void drop_bytes(mismatch *m)
{
    for (size_t count = m->draft.len / 2 + 1; count > 0; count /= 2)
        for (size_t at = m->draft.len; at > 0 && !spent();) {
            at = at > count ? at - count : 0;
            if (at + count > m->draft.len)
                continue;
            tried = *m;
            cut_draft(&tried, at, count);
            smaller(m);
        }
}

/* A letter says least, then a space. */
static void plain_bytes(mismatch *m)
{
    for (size_t i = 0; i < m->draft.len && !spent(); i++)
        for (const char *plain = "a "; *plain != '\0' && m->draft.bytes[i] != (uint8_t)*plain; plain++) {
            tried = *m;
            tried.draft.bytes[i] = (uint8_t)*plain;
            if (smaller(m))
                break;
        }
}

static void drop_operations(mismatch *m)
{
    for (size_t i = operations_of(&m->table); i > 0 && !spent(); i--) {
        tried = *m;
        cut(tried.table.bytes, &tried.table.len, (i - 1) * sizeof *tried.table.operations, sizeof *tried.table.operations);
        smaller(m);
    }
}

/* As `smaller`, but both answers keep their numbers: a want of room would hide what was found. */
static bool less_room(mismatch *m, size_t list_len, size_t text_len)
{
    static mismatch found;

    found = tried = *m;
    tried.list_len = list_len;
    tried.text_len = text_len;
    if (!smaller(m))
        return false;
    if (m->v.archive.numbers[0] == found.v.archive.numbers[0] && m->v.peer.numbers[0] == found.v.peer.numbers[0])
        return true;
    *m = found;
    return false;
}

static void shrink_room(mismatch *m)
{
    for (size_t less = m->list_len; less > 0; less /= 2)
        while (m->list_len >= less && less_room(m, m->list_len - less, m->text_len))
            continue;
    for (size_t less = m->text_len; less > 0; less /= 2)
        while (m->text_len >= less && less_room(m, m->list_len, m->text_len - less))
            continue;
}

static bool nearer(mismatch *m, uint64_t less)
{
    tried = *m;
    tried.place -= less;
    return smaller(m);
}

static void shrink_place(mismatch *m)
{
    for (uint64_t less = m->place; less > 0; less /= 2)
        while (m->place >= less && nearer(m, less))
            continue;
}

/* Places far past every draft are told apart by nothing but being far. */
static size_t size(const mismatch *m)
{
    const uint64_t place = m->place < 2 * DRAFT_ROOM ? m->place : 2 * DRAFT_ROOM;

    return m->draft.len + m->table.len + m->list_len + m->text_len + (size_t)place;
}

void shrink(mismatch *m)
{
    size_t before;

    effort = 0;
    do {
        before = size(m);
        drop_operations(m);
        drop_bytes(m);
        plain_bytes(m);
        shrink_room(m);
        shrink_place(m);
    } while (size(m) < before);
}
