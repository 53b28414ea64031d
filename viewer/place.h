/* Places for people: the line and the column of a byte, and the line with a caret under it. */
#ifndef VIEWER_PLACE_H
#define VIEWER_PLACE_H

#include "writer.h"

/* A place in a text, which is a draft or a table. A text is gone through once, since a position only moves on. */
typedef struct {
    span text;
    size_t place;  /* the byte */
    size_t line;   /* from 1; a line ends with LF */
    size_t column; /* from 1, in characters; a byte order mark at the text's start is none */
    size_t begin;  /* the line's first byte */
} position;

/* The text's first place, behind a byte order mark. */
position position_first(span text);

/* The position of `place`, which does not stand before the one that it is found from. A place past the text is its end. */
position position_on(position from, size_t place);

/* The position of any place. */
position position_of(span text, size_t place);

/* Whether a text begins with a byte order mark. */
bool has_mark(span text);

/* The line's bytes, without LF or CR LF. */
span line_of(const position *p);

/* `FILE:LINE:COLUMN: `. */
void write_place(const writer *w, const char *file, const position *p);

/* The line as it is shown, and below it a caret under the place. On a terminal only as much of it as fits. */
void write_excerpt(const writer *w, const position *p);

#endif
