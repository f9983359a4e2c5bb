/* Which of the seeded faults the libraries have: the number in the variable FAULT of the environment, or none. */
#include <stdint.h>
#include <stdlib.h>

uint64_t fault;

__attribute__((constructor)) static void choose(void)
{
    const char *number = getenv("FAULT");
    fault = number ? strtoull(number, 0, 10) : 0;
}
