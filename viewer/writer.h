/* Where the viewer writes, and how: no byte of a draft, a table or a file's name gets there but as characters.h shows it. */
#ifndef VIEWER_WRITER_H
#define VIEWER_WRITER_H

#include <stdbool.h>
#include <stddef.h>
#include <stdint.h>
#include <stdio.h>

/* Bytes that stand elsewhere, with their number. */
typedef struct {
    const uint8_t *bytes;
    size_t length;
} span;

typedef struct {
    FILE *to;
    bool coloured;
    size_t columns; /* of the terminal; 0 where lines may be of any length */
} writer;

/* What a part of the text is, which a terminal shows by a colour. */
enum colour { PLAIN, STRONG, REFUSED, SOUND, CARET, KIND, DATA };

/* A writer to a file. On a terminal it has colours, if NO_COLOR is not set, and knows how wide the terminal is. */
writer writer_to(FILE *to);

/* From here on the text has this colour, up to write_colour(w, PLAIN). */
void write_colour(const writer *w, enum colour colour);

/* Bytes as they are shown. */
void write_span(const writer *w, span s);

/* Words of the viewer's own, or a file's name; shown as bytes are. */
void write_words(const writer *w, const char *words);

void write_coloured(const writer *w, enum colour colour, const char *words);

/* `1 step`, `2 steps`. */
void write_count(const writer *w, uint64_t n, const char *one, const char *more);

/* The bytes of a string. */
span span_of(const char *words);

/* Whether two spans have the same bytes. */
bool span_is(span s, span other);

#endif
