/* Random numbers from a seed (splitmix64): the same seed, the same run. */
#ifndef TRIAL_RANDOM_H
#define TRIAL_RANDOM_H

#include <stdbool.h>
#include <stdint.h>

typedef struct {
    uint64_t at;
} Random;

static inline uint64_t random_next(Random *random)
{
    uint64_t z = random->at += 0x9E3779B97F4A7C15u;
    z = (z ^ (z >> 30)) * 0xBF58476D1CE4E5B9u;
    z = (z ^ (z >> 27)) * 0x94D049BB133111EBu;
    return z ^ (z >> 31);
}

/* A number below `end`, which is above 0. */
static inline uint32_t random_below(Random *random, uint32_t end)
{
    return (uint32_t)(random_next(random) % end);
}

static inline bool random_once_in(Random *random, uint32_t times)
{
    return random_below(random, times) == 0;
}

#endif
