/* judge RUN SCENES SEED: the machine as judge of the port. */
#include "host.h"
#include "random.h"
#include "runs.h"
#include "words.h"

#define SHOWN 8

uint64_t differences;

void print_count(const char *name, uint64_t count)
{
    print(", ");
    print_number(count);
    print(name);
}

bool all_seen(const uint64_t counts[], size_t count)
{
    for (size_t i = 0; i < count; i++)
        if (!counts[i]) {
            print("too few scenes: something that is counted was not seen\n");
            return false;
        }
    return true;
}

void differ(const char *what, uint64_t address, struct verdict expected)
{
    if (differences++ >= SHOWN)
        return;
    print(what);
    print_difference(address, expected);
}

void differ_in(const char *what, enum access access, uint64_t address, struct translated expected)
{
    if (differences++ >= SHOWN)
        return;
    print(what);
    print_access_difference(access, address, expected);
}

bool run_words(uint64_t scenes)
{
    print_hex(digest_of_words(scenes));
    print("\n");
    return true;
}

static bool run(const char *name, uint64_t scenes)
{
    if (same_word(name, "emitted"))
        return run_emitted(scenes);
    if (same_word(name, "wild"))
        return run_wild(scenes);
    if (same_word(name, "flipped"))
        return run_flipped(scenes);
    if (same_word(name, "words"))
        return run_words(scenes);
    print("no such run\n");
    return false;
}

int main(void)
{
    const char *words[4];
    if (arguments(words, 4) != 4) {
        print("usage: judge emitted|wild|flipped|words SCENES SEED\n");
        leave(2);
    }
    seed_random(number_of(words[3]));
    leave(run(words[1], number_of(words[2])) ? 0 : 1);
}
