#include "alike.h"

#include <string.h>

_Static_assert(sizeof(fast_answer) == sizeof(vogieburn_answer), "both answer the same seven numbers");
_Static_assert(sizeof(fast_entity) == sizeof(vogieburn_entity), "both list the same six numbers");

const char *difference(const vogieburn_answer *a, buffers *by_archive, const fast_answer *f, buffers *by_fast)
{
    const size_t list = a->entities * sizeof(vogieburn_entity);
    const char *what = NULL;

    if (memcmp(a, f, sizeof *a) != 0)
        return "the answers differ";
    if (memcmp(by_archive->list, by_fast->list, list) != 0)
        what = "the lists differ";
    else if (memcmp(by_archive->text, by_fast->text, a->text) != 0)
        what = "the text differs";
    memset(by_archive->list, 0, list);
    memset(by_archive->text, 0, a->text);
    memset(by_fast->list, 0, list);
    memset(by_fast->text, 0, a->text);
    return what;
}
