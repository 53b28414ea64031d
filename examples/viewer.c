/* A C program against the library: reads a draft on standard input and shows its entities, or where and why it was refused. README.md
 * has the lines that build and run it.
 */
#include <inttypes.h>
#include <stdio.h>

#include "vogieburn.h"

/* How many entities there is room for. */
enum { ROOM = 2000 };

/* One byte more than a draft may have, so that a longer one is refused as such. */
static uint8_t draft[VOGIEBURN_DRAFT_LIMIT + 1];
static vogieburn_entity list[ROOM];
static uint8_t text[VOGIEBURN_DRAFT_LIMIT];

static void show(const vogieburn_entity *entity)
{
    printf("%" PRIu32 ": kind %" PRIu32, entity->place, entity->kind);
    if (entity->kind == VOGIEBURN_ARRAY)
        printf(" of %" PRIu32, entity->count);
    if (entity->text_len > 0)
        printf(" %.*s", (int)entity->text_len, (const char *)vogieburn_text(entity, text));
    if (entity->data_len > 0)
        printf(" \"%.*s\"", (int)entity->data_len, (const char *)vogieburn_data(entity, text));
    putchar('\n');
}

int main(void)
{
    const size_t length = fread(draft, 1, sizeof draft, stdin);
    const vogieburn_answer answer =
        vogieburn_read(draft, length, (uint32_t *)list, ROOM * VOGIEBURN_NUMBERS, text, sizeof text);

    for (uint64_t i = 0; i < answer.entities; i++)
        show(&list[i]);
    if (answer.number != 0) {
        printf("refused: number %" PRIu64 " at byte %" PRIu64 "\n", answer.number, answer.place);
        return 1;
    }
    printf("read: %" PRIu64 " entities\n", answer.entities);
    return 0;
}
