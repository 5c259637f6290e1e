#include "chance.h"

static uint64_t drawn;

void chance_begin(uint64_t seed) { drawn = seed; }

/* the last steps of splitmix64 */
uint64_t scattered(uint64_t n)
{
    n = (n ^ n >> 30) * UINT64_C(0xBF58476D1CE4E5B9);
    n = (n ^ n >> 27) * UINT64_C(0x94D049BB133111EB);
    return n ^ n >> 31;
}

unsigned chance(unsigned n)
{
    drawn += UINT64_C(0x9E3779B97F4A7C15);
    return (unsigned)(scattered(drawn) % n);
}
