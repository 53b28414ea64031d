/* Calls of the library with what is to come of them, and how they are held. */
#ifndef C_CALLS_H
#define C_CALLS_H

#include <stdbool.h>

#include "vogieburn.h"

/* A reading or a check, what it is lent and what is to come of it. */
typedef struct {
    bool checks;
    const uint8_t *draft;
    size_t draft_len;
    const uint8_t *table; /* of a check */
    size_t table_len;
    size_t list_room; /* entities */
    size_t text_room; /* bytes */
    vogieburn_answer answer;
    vogieburn_entity *rows; /* the entities held */
    size_t rows_len;
    uint8_t *held; /* the text bytes held */
    size_t held_len;
} vector;

/* A tail, or steps one after the other, from a place on, and what is to be answered. */
typedef struct {
    const uint8_t *draft;
    size_t draft_len;
    uint64_t place;
    vogieburn_tail_answer tail;
    vogieburn_token *tokens; /* of steps */
    size_t tokens_len;
} walk;

/* What can be damaged after a call, as a wrong library might. */
enum spoiled {
    SPOIL_NOTHING,
    SPOIL_STEPS,
    SPOIL_CELLS,
    SPOIL_DRAFT,
    SPOIL_BEFORE_LIST,
    SPOIL_TEXT_AT,
    SPOIL_PAST_ROWS,
    SPOIL_LIST_END,
    SPOIL_BEHIND_LIST,
    SPOIL_BEFORE_TEXT,
    SPOIL_PAST_HELD,
    SPOIL_TEXT_END,
    SPOIL_BEHIND_TEXT,
    SPOIL_TABLE,
    SPOIL_BEFORE_DRAFT,
    SPOIL_BEHIND_DRAFT,
    SPOIL_NEXT
};

/* From now on every call is damaged so. */
void spoil_with(enum spoiled what);

/* Has a check hold what it is to hold: what reading its draft with its room leaves, and after 20 nothing. Rows and text bytes are
 * for free() to take back. */
void hold_reading(vector *v);

/* Makes the call twice, and compares every number of the answer and all that was lent, with its guards. The first call gets null
 * pointers where a length is 0; the second gets addresses, and five numbers of the list to spare, which are room for nothing. */
bool holds(const vector *v);

/* Makes the call twice, first with a null pointer if the draft has no bytes and then with an address, and compares every number of
 * the answer, and the draft with its guards. */
bool tail_holds(const walk *w);

/* The same of steps. Each goes on at the place that the one before it told. */
bool steps_hold(const walk *w);

#endif
