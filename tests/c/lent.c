#include "lent.h"

#include <inttypes.h>
#include <stdarg.h>
#include <stdio.h>
#include <stdlib.h>
#include <string.h>

/* What is being held. */
static char held_now[4096];

void now_held(const char *format, ...)
{
    va_list values;

    va_start(values, format);
    vsnprintf(held_now, sizeof held_now, format, values);
    va_end(values);
}

bool wrong(const char *format, ...)
{
    va_list values;

    printf("%s: ", held_now);
    va_start(values, format);
    vprintf(format, values);
    va_end(values);
    putchar('\n');
    return false;
}

void *room(size_t size)
{
    void *p = malloc(size > 0 ? size : 1);

    if (p == NULL) {
        fputs("out of memory\n", stderr);
        exit(2);
    }
    return p;
}

buffer lend(const char *name, size_t size, size_t len, uint32_t seed)
{
    const size_t whole = (len + 2 * GUARD) * size;
    buffer b = {name, size, len, room(whole), room(whole)};

    for (size_t i = 0; i < whole; i++)
        b.got[i] = (uint8_t)((((uint32_t)i + seed) * 2654435761u) >> 24);
    memcpy(b.wanted, b.got, whole);
    return b;
}

buffer lend_bytes(const char *name, const uint8_t *bytes, size_t len, uint32_t seed)
{
    buffer b = lend(name, 1, len, seed);

    if (len > 0) {
        memcpy(b.got + GUARD, bytes, len);
        is_to_hold(&b, bytes, len);
    }
    return b;
}

uint8_t *start(const buffer *b, bool null)
{
    return null && b->len == 0 ? NULL : b->got + GUARD * b->size;
}

void is_to_hold(buffer *b, const void *bytes, size_t size)
{
    memcpy(b->wanted + GUARD * b->size, bytes, size);
}

void flip(buffer *b, ptrdiff_t i)
{
    b->got[(size_t)(GUARD + i) * b->size] ^= 1;
}

static uint32_t element(const buffer *b, const uint8_t *bytes, size_t i)
{
    uint32_t n = bytes[i];

    if (b->size == sizeof n)
        memcpy(&n, bytes + i * sizeof n, sizeof n);
    return n;
}

bool same_buffer(const buffer *b)
{
    for (size_t i = 0; i < b->len + 2 * GUARD; i++) {
        const uint32_t got = element(b, b->got, i), wanted = element(b, b->wanted, i);

        if (got != wanted)
            return wrong("%s %td is %" PRIu32 ", not %" PRIu32, b->name, (ptrdiff_t)i - GUARD, got, wanted);
    }
    return true;
}

void take_back(buffer *b)
{
    free(b->got);
    free(b->wanted);
}
