/* Drafts and tables as tests/trial draws them, and the texts that a person would write for such tables. Each number of a sample stands
 * for the same bytes always. */
#ifndef VIEWER_SAMPLES_H
#define VIEWER_SAMPLES_H

#include <stdbool.h>
#include <stddef.h>
#include <stdint.h>

#include "vogieburn.h"

/* Room for a sample's draft, and for the text of any table of 256 operations. */
enum { SAMPLE_DRAFT = 20480, SAMPLE_TEXT = 1 << 18 };

typedef struct {
    size_t draft_len;
    uint8_t draft[SAMPLE_DRAFT];
    size_t count;
    vogieburn_operation operations[VOGIEBURN_OPERATIONS_LIMIT];
    size_t text_len;
    uint8_t text[SAMPLE_TEXT]; /* the table as a person writes it */
} sample;

/* A draft alone, every other one damaged. */
void sample_reading(uint64_t number, sample *s);

/* A sound table, its text, and a draft that was made for it. */
void sample_check(uint64_t number, sample *s);

/* Changes the text of a table here and there, if it is no longer than a draft. Answers whether it did. */
bool sample_damage(uint64_t number, sample *s);

#endif
