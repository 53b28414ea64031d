/* The name that was meant, perhaps, where an operation is unknown. */
#ifndef VIEWER_NEAREST_H
#define VIEWER_NEAREST_H

#include "table.h"

/* The operation whose name is nearest to another; `count` of the table if none is near: a change for every three bytes at most. A
 * change is a byte more, a byte less, another byte, or two neighbours in the other order. */
size_t table_nearest(const table *t, span name);

#endif
