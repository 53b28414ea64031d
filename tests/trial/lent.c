#define _DEFAULT_SOURCE /* MAP_ANONYMOUS */

#include "lent.h"

#include <assert.h>
#include <stdio.h>
#include <stdlib.h>
#include <string.h>
#include <sys/mman.h>
#include <unistd.h>

/* An emulator may tell a program of smaller pages than the machine has. No machine that runs one has larger pages than these. */
enum { LARGEST_PAGE = 65536 };

static size_t page_size(void)
{
    const long told = sysconf(_SC_PAGESIZE);

    return told > LARGEST_PAGE ? (size_t)told : LARGEST_PAGE;
}

static size_t round_up(size_t n, size_t unit)
{
    return (n + unit - 1) / unit * unit;
}

/* All of it may not be touched at first, and then only a page or more at each end. */
void make_buffer(buffer *b, const char *name, size_t most)
{
    const size_t page = page_size(), size = round_up(most + GUARD, page);
    uint8_t *const all = mmap(NULL, size + 3 * page, PROT_NONE, MAP_PRIVATE | MAP_ANONYMOUS, -1, 0);

    b->name = name;
    b->most = most;
    if (all != MAP_FAILED) {
        b->first = all + page + (round_up((uintptr_t)all, page) - (uintptr_t)all);
        b->end = b->first + size;
    }
    if (all == MAP_FAILED || mprotect(b->first, size, PROT_READ | PROT_WRITE) != 0) {
        perror("trial: memory between pages");
        exit(2);
    }
}

void lend(buffer *b, enum page page, const uint8_t *was, size_t len, const uint8_t *guard_was)
{
    assert(len <= b->most);
    b->bytes = page == PAGE_BEHIND ? b->end - len : b->first;
    b->len = len;
    b->guard = page == PAGE_BEHIND ? b->bytes - GUARD : b->bytes + len;
    b->was = was;
    b->guard_was = guard_was;
    memcpy(b->bytes, was, len);
    memcpy(b->guard, guard_was, GUARD);
}

static const uint8_t *first_other(const uint8_t *is, const uint8_t *was, size_t len)
{
    if (memcmp(is, was, len) == 0)
        return NULL;
    for (; *is == *was; is++)
        was++;
    return is;
}

const uint8_t *touched(const buffer *b, size_t held)
{
    const uint8_t *const other = first_other(b->bytes + held, b->was + held, b->len - held);

    return other != NULL ? other : first_other(b->guard, b->guard_was, GUARD);
}

bool lies_at(const buffer *b, const void *byte)
{
    const size_t page = page_size();

    return (uintptr_t)byte >= (uintptr_t)b->first - page && (uintptr_t)byte < (uintptr_t)b->end + page;
}

const char *where(const buffer *b, const void *byte)
{
    static char words[60];
    const uint8_t *const at = byte;

    if (at < b->bytes)
        snprintf(words, sizeof words, "byte %td before the %s", b->bytes - at, b->name);
    else if (at < b->bytes + b->len)
        snprintf(words, sizeof words, "byte %td of the %s", at - b->bytes, b->name);
    else
        snprintf(words, sizeof words, "byte %td behind the %s", at - (b->bytes + b->len), b->name);
    return words;
}
