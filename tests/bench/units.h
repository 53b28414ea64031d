/* What drafts of each kind are made of. */
#ifndef BENCH_UNITS_H
#define BENCH_UNITS_H

#include "draft.h"
#include "lots.h"

/* A draft in the making. */
typedef struct {
    draft *d;
    lots l;
    size_t index; /* which draft of its kind and size it is */
    size_t units; /* that stand in it */
    size_t room;  /* bytes that the next one may take; one that takes more is left out again */
} making;

/* Puts one unit, drawn by lot, and what parts it from the next one. */
typedef void unit(making *m);

unit put_word, put_one_letter, put_capitals, put_signed_name, put_compound, put_operator, put_signs, put_sum, put_one_sign,
    put_indented, put_numbers, put_tabbed, put_empty_array, put_strings, put_groups, put_metacommand;

unit put_long_string, put_wide_string, put_short_string, put_escapes, put_nested, put_pairs, put_one_pair, put_picture,
    put_prefixed, put_accented, put_dashes, put_lines, put_comment, put_wide_comment, put_short_comment, put_accented_comment,
    put_dashed_comment, put_foreign_comment, put_data;

/* A weaver's statement; and the same with CR LF at the ends of lines. The first statements of a draft are one of each sort, and where
 * there is little room the first one has all of them in it. */
unit put_mixed, put_mixed_cr_lf;

/* All but |; of the draft of 23 bytes that document 01 has; in every draft but the first with other letters and digits. */
unit put_23_bytes;

/* ---- what units are made of */

/* So many letters. */
void put_letters(making *m, size_t len);

/* Words and blanks, so many bytes. */
void put_text(making *m, size_t len);

/* An array of 1 to 9 numbers, with the same behind each comma. */
void put_array(making *m, const char *behind_comma);

/* What opens and what closes a string. */
void put_opening(making *m, bool curly);
void put_closing(making *m, bool curly);

/* A curly string, in which others stand so deep. */
void put_curly(making *m, size_t depth);

/* A blank, or now and then the end of a line. */
void put_space(making *m);

/* How many bytes a unit is to take: from `least` to `most`, which is twice as much or more, and so that no room is left in which the
 * next one could not stand. Where there is less room than `least` from the first, all of it. */
size_t span(making *m, size_t least, size_t most);

#endif
