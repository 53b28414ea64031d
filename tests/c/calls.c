#include "calls.h"

#include <inttypes.h>
#include <stdio.h>
#include <string.h>

#include "lent.h"

/* The buffers of a call; a reading has no table. */
enum { DRAFT, LIST, TEXT, TABLE, LENT };

/* The numbers of an answer; a tail's has fewer. */
enum { NUMBERS = 7, TAIL_NUMBERS = 3 };

static enum spoiled spoiled;

void spoil_with(enum spoiled what)
{
    spoiled = what;
}

static void spoil_draft(buffer *draft)
{
    switch (spoiled) {
    case SPOIL_DRAFT: flip(draft, 0); break;
    case SPOIL_BEFORE_DRAFT: flip(draft, -1); break;
    case SPOIL_BEHIND_DRAFT: flip(draft, (ptrdiff_t)draft->len); break;
    default: break;
    }
}

static void spoil(const vector *v, vogieburn_answer *answer, buffer lent[LENT])
{
    buffer *list = &lent[LIST], *text = &lent[TEXT];

    spoil_draft(&lent[DRAFT]);
    switch (spoiled) {
    case SPOIL_STEPS: answer->steps++; break;
    case SPOIL_CELLS: answer->cells++; break;
    case SPOIL_BEFORE_LIST: flip(list, -1); break;
    case SPOIL_TEXT_AT: flip(list, 2); break;
    case SPOIL_PAST_ROWS: flip(list, (ptrdiff_t)(VOGIEBURN_NUMBERS * v->rows_len)); break;
    case SPOIL_LIST_END: flip(list, (ptrdiff_t)list->len - 1); break;
    case SPOIL_BEHIND_LIST: flip(list, (ptrdiff_t)list->len); break;
    case SPOIL_BEFORE_TEXT: flip(text, -1); break;
    case SPOIL_PAST_HELD: flip(text, (ptrdiff_t)v->held_len); break;
    case SPOIL_TEXT_END: flip(text, (ptrdiff_t)text->len - 1); break;
    case SPOIL_BEHIND_TEXT: flip(text, (ptrdiff_t)text->len); break;
    case SPOIL_TABLE: flip(&lent[TABLE], 0); break;
    default: break;
    }
}

void hold_reading(vector *v)
{
    vogieburn_answer reading = {0};

    v->rows = room(v->list_room * sizeof *v->rows);
    v->held = room(v->text_room);
    if (v->answer.number != VOGIEBURN_TABLE_UNSOUND)
        reading = vogieburn_read(v->draft, v->draft_len, (uint32_t *)v->rows, VOGIEBURN_NUMBERS * v->list_room, v->held,
                                 v->text_room);
    v->rows_len = (size_t)reading.entities;
    v->held_len = (size_t)reading.text;
}

/* Compares the first `len` numbers of two answers. `what` comes before the name of one that differs. */
static bool same_numbers(const char *what, const char *const *names, size_t len, const void *got, const void *wanted)
{
    uint64_t a[NUMBERS], b[NUMBERS];

    memcpy(a, got, len * sizeof *a);
    memcpy(b, wanted, len * sizeof *b);
    for (size_t i = 0; i < len; i++)
        if (a[i] != b[i])
            return wrong("%s%s is %" PRIu64 ", not %" PRIu64, what, names[i], a[i], b[i]);
    return true;
}

static bool same_answer(const vogieburn_answer *got, const vogieburn_answer *wanted)
{
    static const char *const names[NUMBERS] = {"number", "place", "entities", "text", "consumed", "steps", "cells"};

    return same_numbers("", names, NUMBERS, got, wanted);
}

/* The answer tells as many entities and text bytes as are to be held. */
static bool tells_held(const vector *v, const vogieburn_answer *answer)
{
    return (answer->entities == v->rows_len && answer->text == v->held_len) ||
           wrong("held are %zu entities and %zu text bytes, and the answer tells others", v->rows_len, v->held_len);
}

static vogieburn_answer called(const vector *v, const buffer lent[LENT], bool null)
{
    const uint8_t *draft = start(&lent[DRAFT], null), *table = start(&lent[TABLE], null);
    uint32_t *list = (uint32_t *)(void *)start(&lent[LIST], null);
    uint8_t *text = start(&lent[TEXT], null);

    if (v->checks)
        return vogieburn_check(draft, v->draft_len, list, lent[LIST].len, text, v->text_room, table, v->table_len);
    return vogieburn_read(draft, v->draft_len, list, lent[LIST].len, text, v->text_room);
}

/* One call, with room for `list_len` numbers; with `null`, null pointers stand where a length is 0. */
static bool call_holds(const vector *v, size_t list_len, bool null, uint32_t seed)
{
    buffer lent[LENT];
    vogieburn_answer answer;
    bool same;

    lent[DRAFT] = lend_bytes("draft byte", v->draft, v->draft_len, seed);
    lent[LIST] = lend("list number", sizeof(uint32_t), list_len, seed);
    lent[TEXT] = lend("text byte", 1, v->text_room, seed);
    lent[TABLE] = lend_bytes("table byte", v->table, v->table_len, seed);
    is_to_hold(&lent[LIST], v->rows, v->rows_len * sizeof *v->rows);
    is_to_hold(&lent[TEXT], v->held, v->held_len);
    answer = called(v, lent, null);
    spoil(v, &answer, lent);
    same = same_answer(&answer, &v->answer) && tells_held(v, &answer);
    for (size_t i = 0; i < LENT; i++) {
        same = same && same_buffer(&lent[i]);
        take_back(&lent[i]);
    }
    return same;
}

bool holds(const vector *v)
{
    const size_t list_len = VOGIEBURN_NUMBERS * v->list_room;

    return call_holds(v, list_len, true, 1) && call_holds(v, list_len + VOGIEBURN_NUMBERS - 1, false, 2);
}

/* ---- tails and steps */

static bool same_tail(const vogieburn_tail_answer *got, const vogieburn_tail_answer *wanted)
{
    static const char *const names[TAIL_NUMBERS] = {"number", "yes", "place"};

    return same_numbers("", names, TAIL_NUMBERS, got, wanted);
}

static bool tail_call_holds(const walk *w, bool null, uint32_t seed)
{
    buffer draft = lend_bytes("draft byte", w->draft, w->draft_len, seed);
    const vogieburn_tail_answer answer = vogieburn_tail(start(&draft, null), w->draft_len, w->place);
    bool same;

    spoil_draft(&draft);
    same = same_tail(&answer, &w->tail) && same_buffer(&draft);
    take_back(&draft);
    return same;
}

bool tail_holds(const walk *w)
{
    return tail_call_holds(w, true, 1) && tail_call_holds(w, false, 2);
}

static bool same_token(size_t step, const vogieburn_token *got, const vogieburn_token *wanted)
{
    static const char *const names[NUMBERS] = {"number", "place", "after", "sort", "prefix", "length", "next"};
    char what[40];

    snprintf(what, sizeof what, "step %zu: ", step);
    return same_numbers(what, names, NUMBERS, got, wanted);
}

static bool step_calls_hold(const walk *w, bool null, uint32_t seed)
{
    buffer draft = lend_bytes("draft byte", w->draft, w->draft_len, seed);
    uint64_t place = w->place;
    bool same = true;

    for (size_t i = 0; same && i < w->tokens_len; i++) {
        vogieburn_token token = vogieburn_step(start(&draft, null), w->draft_len, place);

        spoil_draft(&draft);
        if (spoiled == SPOIL_NEXT)
            token.next++;
        same = same_token(i + 1, &token, &w->tokens[i]) && same_buffer(&draft);
        place = token.next;
    }
    take_back(&draft);
    return same;
}

bool steps_hold(const walk *w)
{
    return step_calls_hold(w, true, 1) && step_calls_hold(w, false, 2);
}
