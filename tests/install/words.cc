/* The header in C++: reads, checks, tells the rest and steps, and writes the words for each number of refusal, one to a line. */
#include <cstdio>
#include <vector>

#include "vogieburn.h"

static const uint8_t draft[] = "[1] bind |; ";

/* Whether all four calls answer as they do in C. */
static bool calls_answer()
{
    const uint8_t takes[] = {VOGIEBURN_ARRAY_OF(VOGIEBURN_CELL_NUMBER)};
    std::vector<vogieburn_entity> list(8);
    std::vector<uint8_t> text(8);
    vogieburn_operation table;
    uint32_t *const numbers = reinterpret_cast<uint32_t *>(list.data());
    const size_t room = list.size() * VOGIEBURN_NUMBERS, length = sizeof draft - 1;

    if (!vogieburn_operation_make(&table, "bind", 4, takes, sizeof takes, nullptr, 0))
        return false;
    const vogieburn_answer read = vogieburn_read(draft, length, numbers, room, text.data(), text.size());
    const vogieburn_answer checked = vogieburn_check(draft, length, numbers, room, text.data(), text.size(),
                                                     reinterpret_cast<const uint8_t *>(&table), sizeof table);
    return read.number == 0 && checked.number == 0 && checked.steps == 6 && read.entities == 6 &&
           *vogieburn_text(&list[4], text.data()) == 'b' && vogieburn_tail(draft, length, read.consumed).yes == 1 &&
           vogieburn_step(draft, length, 1).after == 2;
}

int main()
{
    if (!calls_answer())
        return 1;
    for (uint64_t number = 1; number <= VOGIEBURN_PLACE_PAST_DRAFT; number++)
        std::puts(vogieburn_refusal_words(number));
    std::puts(vogieburn_refusal_words(0));
    std::puts(vogieburn_refusal_words(VOGIEBURN_PLACE_PAST_DRAFT + 1));
    return 0;
}
