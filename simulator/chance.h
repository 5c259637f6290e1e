/* Chance, all of it from one seed: the same seed gives the same run. */
#ifndef CHANCE_H
#define CHANCE_H

#include <stdint.h>

void chance_begin(uint64_t seed);

/* 0 to n - 1 */
unsigned chance(unsigned n);

/* a number without a pattern, of a number: what does not depend on the run is drawn with it */
uint64_t scattered(uint64_t n);

#endif
