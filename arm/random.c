#include "random.h"

static uint64_t state;

void seed_random(uint64_t seed)
{
    state = seed;
}

/* splitmix64 */
uint64_t any_number(void)
{
    uint64_t z = state += 0x9E3779B97F4A7C15;
    z = (z ^ (z >> 30)) * 0xBF58476D1CE4E5B9;
    z = (z ^ (z >> 27)) * 0x94D049BB133111EB;
    return z ^ (z >> 31);
}

uint64_t below(uint64_t limit)
{
    return any_number() % limit;
}

bool one_in(uint64_t count)
{
    return below(count) == 0;
}
