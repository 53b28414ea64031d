/* Numbers that look drawn by lot and are the same for the same seed. */
#ifndef TRIAL_LOTS_H
#define TRIAL_LOTS_H

#include <stdbool.h>
#include <stddef.h>
#include <stdint.h>

typedef struct {
    uint64_t state;
} lots;

/* The generator known as splitmix64. */
static inline uint64_t draw(lots *l)
{
    uint64_t n = l->state += 0x9E3779B97F4A7C15u;

    n = (n ^ (n >> 30)) * 0xBF58476D1CE4E5B9u;
    n = (n ^ (n >> 27)) * 0x94D049BB133111EBu;
    return n ^ (n >> 31);
}

/* The draws for one index of one seed, which depend on no other index. */
static inline lots lots_for(uint64_t seed, uint64_t index)
{
    lots first = {seed};
    lots l = {draw(&first) ^ (index * 0xD6E8FEB86659FD93u)};

    return l;
}

/* 0 to n - 1. */
static inline size_t below(lots *l, size_t n)
{
    return (size_t)(((draw(l) >> 32) * n) >> 32);
}

static inline bool one_in(lots *l, size_t n)
{
    return below(l, n) == 0;
}

#endif
