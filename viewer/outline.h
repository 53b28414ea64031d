/* Which groups are elements of arrays: the list has an array behind its elements, and a reader wants it before them. */
#ifndef VIEWER_OUTLINE_H
#define VIEWER_OUTLINE_H

#include "draft.h"

/* What a begin group of the list is. */
typedef struct {
    uint32_t element; /* which element of an array, from 1; 0 for a group of its own */
    uint32_t array;   /* of a first element: the array's count */
} group;

/* Tells the groups of a list that was read to its end, each at its begin group's index. `groups` has room for ROOM. */
void outline(const draft *d, group *groups);

#endif
