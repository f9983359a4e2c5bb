#include "descent.h"

#include "machine.h"
#include "scene.h"

#define LEADS_ON (VALID | TABLE_OR_PAGE)

static bool in_arena(uint64_t arena, uint64_t named)
{
    return named - arena < S2_TABLE_COUNT * PAGE;
}

/* The nine index bits of a level. */
static uint64_t index_of(unsigned level, uint64_t address)
{
    return address / (PAGE << 9 * (LEVELS - level)) % TABLE_LEN;
}

struct places places_of(uint64_t arena, uint64_t address)
{
    struct places p = {.count = 0};
    uint64_t named = arena;
    for (unsigned level = 1; level <= LEVELS && in_memory(named); level++) {
        uint64_t index = index_of(level, address), word = ((const uint64_t *)named)[index];
        if (!in_arena(arena, named)) {
            uint64_t *place = p.at[p.count++];
            place[0] = named;
            place[1] = index;
            place[2] = word;
        }
        named = word & ADDRESS;
    }
    return p;
}

struct end end_of(uint64_t arena, uint64_t address)
{
    struct end end = {.level = 1};
    uint64_t named = arena;
    for (;; end.level++) {
        end.place = (uint64_t *)named + index_of(end.level, address);
        end.outside |= !in_arena(arena, named);
        named = *end.place & ADDRESS;
        if ((*end.place & LEADS_ON) != LEADS_ON || end.level == LEVELS || !in_memory(named))
            return end;
    }
}
