/* All that there is to say of a draft, for programs. */
#ifndef VIEWER_JSON_H
#define VIEWER_JSON_H

#include "draft.h"

/* One object in US-ASCII. vogieburn-view(1) says what it holds. */
void write_json(const writer *w, const draft *d);

#endif
