/* A draft, and what the library says of it. */
#ifndef VIEWER_DRAFT_H
#define VIEWER_DRAFT_H

#include "table.h"
#include "vogieburn.h"
#include "writer.h"

enum {
    /* Room for the entities of every draft. A comma or a closing bracket brings two, and every other token one, but for an opening
     * bracket, which brings none and makes the next token bring one more. So a byte brings two at most, and the first byte, which
     * closes nothing, one: 32,767, and `[` with commas to the limit has as many. */
    ROOM = 2 * VOGIEBURN_DRAFT_LIMIT - 1,
    /* The room of the listing (document 01, "Drafts to try"). */
    LISTING_ROOM = 2000,
};

typedef struct {
    const char *file;
    size_t length;
    uint8_t bytes[VOGIEBURN_DRAFT_LIMIT + 1]; /* a byte more than a draft may have, so that a longer one is refused as such */
    vogieburn_entity list[ROOM];
    uint8_t text[VOGIEBURN_DRAFT_LIMIT]; /* clean text has never more bytes than the draft */
    const table *under;                  /* what it was checked against; null if it was only read */
    const char *table_file;
    vogieburn_answer answer;
} draft;

/* Reads the draft, or checks it under its table, with room for so many entities. */
void draft_read(draft *d, size_t room);

/* The draft's bytes, as they were handed over. */
span draft_span(const draft *d);

span text_of(const draft *d, const vogieburn_entity *e);
span data_of(const draft *d, const vogieburn_entity *e);

/* Whether the entity is a string, and so has data. */
bool is_string(const vogieburn_entity *e);

/* An entity's kind in document 01's words. */
const char *kind_words(uint32_t kind);

/* What ?, @, = and : are for the kinds of entity that have them; the nul for all others. */
char sign_of(const vogieburn_entity *e);

#endif
