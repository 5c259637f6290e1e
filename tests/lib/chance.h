/*
 * Chance from a fixed seed, so that each run of a test does the same. Define CHANCE_SEED before it is included.
 */
#ifndef CHANCE_H
#define CHANCE_H

#include <stdint.h>

static uint64_t chance_state = CHANCE_SEED;

static inline uint64_t any(void)
{
    uint64_t z = chance_state += UINT64_C(0x9E3779B97F4A7C15);
    z = (z ^ z >> 30) * UINT64_C(0xBF58476D1CE4E5B9);
    z = (z ^ z >> 27) * UINT64_C(0x94D049BB133111EB);
    return z ^ z >> 31;
}

static inline unsigned below(unsigned n) { return (unsigned)(any() % n); }
static inline int once_in(unsigned n) { return below(n) == 0; }

#endif
