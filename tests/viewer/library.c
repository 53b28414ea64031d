/* The library's calls, answered by the peer (tests/peer), for a machine on which the sanitizers do not run the archive's code. */
#include "peer.h"
#include "vogieburn.h"

vogieburn_answer(vogieburn_read)(const uint8_t *draft, size_t draft_len, uint32_t *list, size_t list_len, uint8_t *text,
                                 size_t text_len)
{
    return peer_read(draft, draft_len, list, list_len, text, text_len);
}

vogieburn_answer(vogieburn_check)(const uint8_t *draft, size_t draft_len, uint32_t *list, size_t list_len, uint8_t *text,
                                  size_t text_len, const uint8_t *table, size_t table_len)
{
    return peer_check(draft, draft_len, list, list_len, text, text_len, table, table_len);
}

vogieburn_tail_answer(vogieburn_tail)(const uint8_t *draft, size_t draft_len, uint64_t place)
{
    return peer_tail(draft, draft_len, place);
}

vogieburn_token(vogieburn_step)(const uint8_t *draft, size_t draft_len, uint64_t place)
{
    return peer_step(draft, draft_len, place);
}
