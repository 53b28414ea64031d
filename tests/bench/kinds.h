/* The kinds of drafts that reading is measured on, and their sizes. */
#ifndef BENCH_KINDS_H
#define BENCH_KINDS_H

#include <stdbool.h>

#include "draft.h"
#include "units.h"

enum { KINDS = 38, SIZES = 4 };

/* Three of the sizes: the smallest drafts, and those between which the growth of a byte's cost is told. */
enum { SMALL = 0, KIB_1 = 1, KIB_16 = 3 };

typedef struct {
    const char *word; /* on the command line and in the file of counts */
    const char *name; /* in the tables */
    unit *put;
    double bar;       /* the most that the library's time may be, as a multiple of the yardstick's */
    size_t bytes;     /* of each draft, where they are all alike in this; else 0 */
} kind;

extern const kind kinds[KINDS];

typedef struct {
    const char *word;
    const char *name;
    size_t least, most; /* bytes of a draft */
    size_t drafts;      /* how many, since a processor learns a single one by heart */
} size;

/* But for the smallest, the drafts of each size have as many bytes together, so that a processor learns no size better than another. */
extern const size sizes[SIZES];

/* The most drafts of a size, and the most bytes that they have together. */
enum { DRAFTS = 256, BYTES = 262144 };

/* Whether a kind has drafts of a size. */
bool has_size(size_t of, size_t at);

/* One of the drafts of a kind and size, always the same for the same index. One of the smallest has a single unit; else units are put
 * as long as one fits. Answers whether the draft is of its size. */
bool make_draft(draft *d, size_t of, size_t at, size_t index);

#endif
