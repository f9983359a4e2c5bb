/* The digest of the port's answers on the machine that builds it: words SCENES SEED. */
#include <inttypes.h>
#include <stdio.h>
#include <stdlib.h>

#include "host.h"
#include "random.h"
#include "words.h"

void print(const char *text)
{
    fputs(text, stdout);
}

void print_number(uint64_t number)
{
    printf("%" PRIu64, number);
}

_Noreturn void leave(int status)
{
    exit(status);
}

int main(int count, char *words[])
{
    if (count != 3)
        return 2;
    seed_random(strtoull(words[2], 0, 10));
    printf("%" PRIX64 "\n", digest_of_words(strtoull(words[1], 0, 10)));
    return 0;
}
