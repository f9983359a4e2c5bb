/* Numbers from a seed: the same seed gives the same run. */
#ifndef RANDOM_H
#define RANDOM_H

#include <stdbool.h>
#include <stdint.h>

void seed_random(uint64_t seed);
uint64_t any_number(void);
/* Below a limit that is not 0. */
uint64_t below(uint64_t limit);
bool one_in(uint64_t count);

#endif
