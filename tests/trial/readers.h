/* The calls of the library and of the peer, as functions of four types. */
#ifndef TRIAL_READERS_H
#define TRIAL_READERS_H

#include "peer.h"
#include "vogieburn.h"

typedef vogieburn_answer reader(const uint8_t *draft, size_t draft_len, uint32_t *list, size_t list_len, uint8_t *text,
                                size_t text_len);

/* The library as its header offers it: a macro, which has no address. */
static inline vogieburn_answer archive_read(const uint8_t *draft, size_t draft_len, uint32_t *list, size_t list_len,
                                            uint8_t *text, size_t text_len)
{
    return vogieburn_read(draft, draft_len, list, list_len, text, text_len);
}

typedef vogieburn_answer checker(const uint8_t *draft, size_t draft_len, uint32_t *list, size_t list_len, uint8_t *text,
                                 size_t text_len, const uint8_t *table, size_t table_len);

static inline vogieburn_answer archive_check(const uint8_t *draft, size_t draft_len, uint32_t *list, size_t list_len,
                                             uint8_t *text, size_t text_len, const uint8_t *table, size_t table_len)
{
    return vogieburn_check(draft, draft_len, list, list_len, text, text_len, table, table_len);
}

typedef vogieburn_tail_answer tail_teller(const uint8_t *draft, size_t draft_len, uint64_t place);

static inline vogieburn_tail_answer archive_tail(const uint8_t *draft, size_t draft_len, uint64_t place)
{
    return vogieburn_tail(draft, draft_len, place);
}

typedef vogieburn_token stepper(const uint8_t *draft, size_t draft_len, uint64_t place);

static inline vogieburn_token archive_step(const uint8_t *draft, size_t draft_len, uint64_t place)
{
    return vogieburn_step(draft, draft_len, place);
}

#endif
