/* A second reader of Shastina texts with its check, its tail and its step, written from documents 004 and 01, docs/LAYOUT.md and the
 * header, without a look at the library's code.
 *
 * PEER_WRONG, a number given when they are compiled, changes one rule, so that a comparison can be shown to find it:
 *   0  no rule is changed;
 *   1  `,` right after `[` ends an element whose begin group was never reported, as in `[,]`;
 *   2  a quote, or a curly, is called escaped because one backslash stands before it, as in "a\\";
 *   3  `|;` is taken as the end wherever it stands, as in `a|;`;
 *   4  a high surrogate before malformed bytes is 2 and not 3;
 *   5  19 is looked at before 18 (but for the 18 of an inserted begin group);
 *   6  an empty element, or group, counts as a cell, as in `[1,]`;
 *   7  what takes a cell reaches hidden ones, as in `1 (n)`;
 *   8  23 is looked at before 22, on a hidden cell, as in `"" (n)`;
 *   9  there is no 24: a plain number serves as a count of 0;
 *  10  a group closes on two cells as well;
 *  11  a put to a constant is let through;
 *  12  1,025 cells are let through;
 *  13  1 is looked at before 20;
 *  14  129 names are let through;
 *  15  a put looks for its name before it looks for a cell: 26 and 27 before 22;
 *  16  two equal names in a table are seen only side by side;
 *  17  29 is looked at before an operation takes its items;
 *  18  tail takes a comment for whitespace;
 *  19  tail takes any CR for whitespace;
 *  20  tail takes the first place past the draft for its end;
 *  21  tail takes the draft's end for a place past it;
 *  22  tail tells the draft's length, wherever what is not whitespace stands;
 *  23  tail takes a byte order mark for whitespace;
 *  24  tail looks at 31 before 1;
 *  25  step goes on behind `|;`;
 *  26  step goes on behind a refusal, at the next byte;
 *  27  step takes a byte order mark for a character at place 0 too;
 *  28  step loses a byte order mark at other places too;
 *  29  step has no 1;
 *  30  step tells 7 at the place that it is handed, if that is past the draft;
 *  31  step tells the length that string data has in the draft, not that of the clean bytes;
 *  32  tail and step look at the lowest 32 bits of a place only.
 */
#ifndef PEER_H
#define PEER_H

#include "vogieburn.h"

#ifndef PEER_WRONG
#define PEER_WRONG 0
#endif

/* Reads a draft exactly as vogieburn_read does: the same answer and the same contents of both buffers. Where a length is 0 its
 * pointer may be null. */
vogieburn_answer peer_read(const uint8_t *draft, size_t draft_len, uint32_t *list, size_t list_len, uint8_t *text,
                           size_t text_len);

/* Checks a draft exactly as vogieburn_check does. The table stays as it is, too. */
vogieburn_answer peer_check(const uint8_t *draft, size_t draft_len, uint32_t *list, size_t list_len, uint8_t *text,
                            size_t text_len, const uint8_t *table, size_t table_len);

/* Tells what follows exactly as vogieburn_tail does. */
vogieburn_tail_answer peer_tail(const uint8_t *draft, size_t draft_len, uint64_t place);

/* Tells a token exactly as vogieburn_step does. */
vogieburn_token peer_step(const uint8_t *draft, size_t draft_len, uint64_t place);

#endif
