/* One call, made by the archive and by the peer. */
#ifndef TRIAL_COMPARE_H
#define TRIAL_COMPARE_H

#include <stdbool.h>
#include <stddef.h>
#include <stdint.h>

#include "vogieburn.h"

enum sort { READING, CHECK, TAIL, STEP, SORTS };

/* A draft; the room that it is read with, and the table that it is checked against; or the place that a tail or a step is asked at.
 * What a call of its sort does not take is 0. */
typedef struct {
    enum sort sort;
    const uint8_t *draft;
    size_t draft_len; /* bytes, at most DRAFT_ROOM */
    size_t list_len;  /* numbers */
    size_t text_len;  /* bytes */
    const uint8_t *table;
    size_t table_len; /* bytes */
    uint64_t place;
} call;

/* Tails and steps are asked at a place, and hold nothing. */
static inline bool has_place(enum sort sort)
{
    return sort == TAIL || sort == STEP;
}

/* The greatest number of refusal, and whether a call of a sort answers with a number (document 01, "Numbers of refusal"). */
enum { LAST_REFUSAL = 31 };

static inline bool is_number_of(enum sort sort, uint64_t number)
{
    static const uint64_t last[SORTS] = {[READING] = 19, [CHECK] = 30, [TAIL] = 1, [STEP] = 9};

    return number <= last[sort] || (sort == TAIL && number == LAST_REFUSAL);
}

/* The numbers of an answer of any sort, and their names. A tail's answer has three of them. */
enum { NUMBERS = 7 };

typedef union {
    uint64_t numbers[NUMBERS];
    vogieburn_answer reading; /* or check */
    vogieburn_tail_answer tail;
    vogieburn_token token;
} any_answer;

extern const char *const number_names[SORTS][NUMBERS];

static inline size_t numbers_of(enum sort sort)
{
    return sort == TAIL ? 3 : NUMBERS;
}

/* Both answers, and where they are not the same, what differs first. */
typedef struct {
    any_answer archive, peer;
    char difference[200];
} verdict;

/* Whether both give the same answer and leave the same bytes in list and text, and leave all else alone: draft and table, the
 * guard of each buffer, and what the answer does not say to be held. Neither can touch what lies beside a buffer: the page behind
 * it stops the program, and the library is called a second time with pages before its buffers. */
bool same(const call *c, verdict *v);

/* What was touched when a page stopped the program, in words. */
const char *stopped_at(const void *byte);

/* From here on one thing is damaged after each call that holds something: 1 to 3 the answer's first number, of the peer, of the
 * library and of its second call; 4 to 6 the second number, and so on up to the last; then of list, text, draft and
 * table, as far as the call is lent them, one byte of four each. */
enum { SPOILED = 3 * (NUMBERS + 4 * 4) };
void spoil_with(uint64_t way);

/* From here on the library touches a page beside a buffer that it is lent: behind the first one, before it, behind the second, and so
 * on, in the same order. */
enum { TOUCHED = 2 * 4 };
void touch_with(uint64_t way);

#endif
