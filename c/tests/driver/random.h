/* Drawn numbers: the same seed draws the same ones. */
#ifndef RANDOM_H
#define RANDOM_H

#include <stdbool.h>
#include <stdint.h>

/* Spreads a number over 64 bits (splitmix64). */
static inline uint64_t random_mixed(uint64_t number)
{
    number += 0x9e3779b97f4a7c15u;
    number = (number ^ (number >> 30)) * 0xbf58476d1ce4e5b9u;
    number = (number ^ (number >> 27)) * 0x94d049bb133111ebu;
    return number ^ (number >> 31);
}

/* A number below bound, which is not 0. */
static inline uint32_t random_below(uint64_t *state, uint32_t bound)
{
    *state += 1;
    return (uint32_t)((random_mixed(*state) >> 32) % bound);
}

static inline bool random_in_hundred(uint64_t *state, uint32_t percent)
{
    return random_below(state, 100) < percent;
}

#endif
