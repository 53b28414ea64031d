#include "compare.h"

#include <inttypes.h>
#include <stdarg.h>
#include <stdio.h>
#include <string.h>

#include "draft.h"
#include "lent.h"
#include "readers.h"
#include "table.h"

_Static_assert(sizeof(vogieburn_entity) == VOGIEBURN_NUMBERS * sizeof(uint32_t), "entities have no gaps");
_Static_assert(sizeof(any_answer) == NUMBERS * sizeof(uint64_t), "answers have no gaps");

const char *const number_names[SORTS][NUMBERS] = {
    [READING] = {"number", "place", "entities", "text", "consumed", "steps", "cells"},
    [CHECK] = {"number", "place", "entities", "text", "consumed", "steps", "cells"},
    [TAIL] = {"number", "yes", "place"},
    [STEP] = {"number", "place", "after", "sort", "prefix", "length", "next"},
};

enum { LIST, TEXT, DRAFT, TABLE, BUFFERS };

/* What each sort of call is lent: the buffers from the first on, up to the one that is left out. */
static const struct {
    size_t first, end;
} lent_to[SORTS] = {[READING] = {LIST, TABLE}, [CHECK] = {LIST, BUFFERS}, [TAIL] = {DRAFT, TABLE}, [STEP] = {DRAFT, TABLE}};

static const char *const buffer_names[BUFFERS] = {"list", "text", "draft", "table"};

/* Every byte of a draft can bring two entities. */
enum { LIST_ROOM = DRAFT_ROOM * 2 * sizeof(vogieburn_entity) };

static const size_t most_bytes[BUFFERS] = {
    [LIST] = LIST_ROOM,
    [TEXT] = DRAFT_ROOM + 64,
    [DRAFT] = DRAFT_ROOM,
    [TABLE] = OPERATION_ROOM * sizeof(vogieburn_operation),
};

/* Who is called, with memory of its own. */
typedef struct {
    const char *name;
    reader *read;
    checker *check;
    tail_teller *tail;
    stepper *step;
    enum page page;
    buffer lent[BUFFERS];
} caller;

/* The library is called twice, so that a page stands on either side of what it is lent. */
static caller callers[] = {
    {.name = "peer", .read = peer_read, .check = peer_check, .tail = peer_tail, .step = peer_step, .page = PAGE_BEHIND},
    {.name = "archive", .read = archive_read, .check = archive_check, .tail = archive_tail, .step = archive_step,
     .page = PAGE_BEHIND},
    {.name = "archive behind pages", .read = archive_read, .check = archive_check, .tail = archive_tail, .step = archive_step,
     .page = PAGE_BEFORE},
};
static caller *const peer = &callers[0];

/* What is done to a call so that the trial has to fail; 0 is nothing. */
static uint64_t spoiled, touching;

void spoil_with(uint64_t way)
{
    spoiled = way;
}

void touch_with(uint64_t way)
{
    touching = way;
}

static bool differ(verdict *v, const char *format, ...)
{
    va_list values;

    va_start(values, format);
    vsnprintf(v->difference, sizeof v->difference, format, values);
    va_end(values);
    return false;
}

/* ---- what is lent */

/* Calls until the pattern comes again. */
enum { TURNS = 1021 };

static size_t turn;

/* What list and text are lent with, and before it what the guards have. Neighbours differ in the pattern, and a turn moves it by
 * one: so no place has what it had in the call before. */
static const uint8_t *pattern(void)
{
    static uint8_t bytes[GUARD + LIST_ROOM + TURNS];

    if (bytes[1] == 0)
        for (size_t i = 0; i < sizeof bytes; i++)
            bytes[i] = (uint8_t)(((uint32_t)i * 2654435761u) >> 24);
    return bytes + turn % TURNS;
}

static void lend_all(caller *by, const call *c)
{
    const uint8_t *const guard = pattern(), *const any = guard + GUARD;

    if (by->lent[LIST].first == NULL)
        for (size_t i = 0; i < BUFFERS; i++)
            make_buffer(&by->lent[i], buffer_names[i], most_bytes[i]);
    if (!has_place(c->sort)) {
        lend(&by->lent[LIST], by->page, any, c->list_len * sizeof(uint32_t), guard);
        lend(&by->lent[TEXT], by->page, any, c->text_len, guard);
    }
    lend(&by->lent[DRAFT], by->page, c->draft, c->draft_len, guard);
    if (c->sort == CHECK)
        lend(&by->lent[TABLE], by->page, c->table, c->table_len, guard);
}

/* A buffer of no bytes leads to the page behind it, or is null. */
static void *pointer(const caller *by, size_t which)
{
    const buffer *const b = &by->lent[which];

    return b->len == 0 && by->page == PAGE_BEFORE ? NULL : b->bytes;
}

const char *stopped_at(const void *byte)
{
    static char words[100];

    for (size_t i = 0; i < COUNT(callers); i++)
        for (size_t j = 0; j < BUFFERS; j++)
            if (lies_at(&callers[i].lent[j], byte)) {
                snprintf(words, sizeof words, "the %s touched %s", callers[i].name, where(&callers[i].lent[j], byte));
                return words;
            }
    return "what was touched is beside no lent buffer";
}

/* ---- what came back */

/* Bytes of a buffer that an answer tells to be held. Draft and table are no place to hold anything. */
static size_t held(const any_answer *a, size_t which)
{
    switch (which) {
    case LIST: return (size_t)a->reading.entities * sizeof(vogieburn_entity);
    case TEXT: return (size_t)a->reading.text;
    default: return 0;
    }
}

static bool holds_more(const call *c, const any_answer *a)
{
    return !has_place(c->sort) && (a->reading.entities > c->list_len / VOGIEBURN_NUMBERS || a->reading.text > c->text_len);
}

/* Whether a caller left alone what its answer does not say to be held. */
static bool kept(const caller *by, const call *c, const any_answer *a, verdict *v)
{
    if (!is_number_of(c->sort, a->numbers[0]))
        return differ(v, "the %s answers %" PRIu64 ", which is no refusal of this call", by->name, a->numbers[0]);
    if (holds_more(c, a))
        return differ(v, "the %s tells that it holds more than there is room for", by->name);
    for (size_t i = lent_to[c->sort].first; i < lent_to[c->sort].end; i++) {
        const uint8_t *const at = touched(&by->lent[i], held(a, i));

        if (at != NULL)
            return differ(v, "the %s wrote to %s, which it does not hold", by->name, where(&by->lent[i], at));
    }
    return true;
}

static bool same_answers(const caller *by, const call *c, verdict *v)
{
    const uint64_t *const archive = v->archive.numbers, *const other = v->peer.numbers;

    for (size_t i = 0; i < numbers_of(c->sort); i++)
        if (archive[i] != other[i])
            return differ(v, "%s: %" PRIu64 " by the %s, %" PRIu64 " by the peer", number_names[c->sort][i], archive[i], by->name,
                          other[i]);
    return true;
}

/* Whether both hold the same bytes; their answers are the same. Only what is lent before the draft can hold any. */
static bool same_held(const caller *by, const call *c, verdict *v)
{
    for (size_t i = lent_to[c->sort].first; i < DRAFT; i++) {
        const uint8_t *const archive = by->lent[i].bytes, *const other = peer->lent[i].bytes;
        size_t at = 0;

        if (memcmp(archive, other, held(&v->archive, i)) == 0)
            continue;
        while (archive[at] == other[at])
            at++;
        return differ(v, "%s: %u by the %s, %u by the peer", where(&peer->lent[i], other + at), archive[at], by->name, other[at]);
    }
    return true;
}

/* ---- a call */

/* Damages one byte of a buffer: its first one, one that is not held, or its guard's first or last. A call that holds too little for
 * that is left as it is. */
static void spoil_buffer(const caller *by, const any_answer *a, size_t which, size_t way)
{
    const buffer *const b = &by->lent[which];
    const size_t first_kept = held(a, which);
    uint8_t *const at[] = {b->bytes, b->bytes + first_kept, b->guard, b->guard + GUARD - 1};

    if ((which >= DRAFT || first_kept > 0) && first_kept < b->len)
        *at[way] ^= 1;
}

/* Damages what a wrong caller might: one of the answer's numbers, or a byte of what it was lent. */
static void spoil(const caller *by, const call *c, any_answer *a)
{
    const size_t way = (spoiled - 1) / COUNT(callers), numbers = numbers_of(c->sort);

    if (by != &callers[(spoiled - 1) % COUNT(callers)])
        return;
    if (way < numbers) {
        a->numbers[way]++;
    } else {
        const size_t which = lent_to[c->sort].first + (way - numbers) / 4;

        if (which < lent_to[c->sort].end)
            spoil_buffer(by, a, which, (way - numbers) % 4);
    }
}

/* Touches the page beside a buffer: writes there if the buffer is lent to be written. */
static void touch(const caller *by, const call *c)
{
    const size_t which = lent_to[c->sort].first + (touching - 1) / 2;
    const buffer *b;
    volatile uint8_t *past;

    if ((touching - 1) % 2 != (by->page == PAGE_BEFORE) || which >= lent_to[c->sort].end)
        return;
    b = &by->lent[which];
    past = by->page == PAGE_BEHIND ? b->bytes + b->len : b->bytes - 1;
    if (which == LIST || which == TEXT)
        *past = 0;
    else
        (void)*past;
}

static any_answer answer(caller *by, const call *c)
{
    any_answer a = {{0}};

    lend_all(by, c);
    switch (c->sort) {
    case READING:
        a.reading = by->read(pointer(by, DRAFT), c->draft_len, pointer(by, LIST), c->list_len, pointer(by, TEXT), c->text_len);
        break;
    case CHECK:
        a.reading = by->check(pointer(by, DRAFT), c->draft_len, pointer(by, LIST), c->list_len, pointer(by, TEXT), c->text_len,
                              pointer(by, TABLE), c->table_len);
        break;
    case TAIL: a.tail = by->tail(pointer(by, DRAFT), c->draft_len, c->place); break;
    case STEP: a.token = by->step(pointer(by, DRAFT), c->draft_len, c->place); break;
    case SORTS: break;
    }
    if (spoiled > 0)
        spoil(by, c, &a);
    if (touching > 0 && by != peer)
        touch(by, c);
    return a;
}

bool same(const call *c, verdict *v)
{
    bool peer_kept;

    turn++;
    v->peer = answer(peer, c);
    peer_kept = kept(peer, c, &v->peer, v);
    for (caller *by = peer + 1; by < callers + COUNT(callers); by++) {
        v->archive = answer(by, c);
        if (!peer_kept || !kept(by, c, &v->archive, v) || !same_answers(by, c, v) || !same_held(by, c, v))
            return false;
    }
    return true;
}
