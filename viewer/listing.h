/* The listing of document 01. */
#ifndef VIEWER_LISTING_H
#define VIEWER_LISTING_H

#include "draft.h"

/* A line for each entity, and how reading ended, as the program crates/listing writes them (document 01, "Drafts to try"). */
void write_listing(const writer *w, const draft *d);

#endif
