/* A number as drafts have them, drawn by lot: some with a sign, some with a fraction. */
#ifndef BENCH_NUMBER_H
#define BENCH_NUMBER_H

#include <stdio.h>

#include "draft.h"
#include "lots.h"

static inline void put_number(draft *d, lots *l)
{
    static const char *const formats[] = {"%zu", "%zu", "-%zu", "+%zu", "%zu.5"};
    static const size_t bounds[] = {10, 100, 1000, 100000};
    char digits[20];
    const size_t n = below(l, bounds[below(l, COUNT(bounds))]);
    const int len = snprintf(digits, sizeof digits, formats[below(l, COUNT(formats))], n);

    put_bytes(d, digits, (size_t)len);
}

#endif
