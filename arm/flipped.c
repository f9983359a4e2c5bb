#include "addresses.h"
#include "descent.h"
#include "host.h"
#include "random.h"
#include "runs.h"

static uint64_t flips, caught, places;

/* Whether the bit of a leaf decides what is reached: valid, type, access, access flag, XN, and the address above the leaf's size. */
static bool decides(unsigned bit, unsigned level)
{
    unsigned lowest = level == 3 ? 12 : 21;
    switch (bit) {
    case 0:
    case 1:
    case 6:
    case 7:
    case 10:
    case 54:
        return true;
    case 53:
        return has_xnx();
    default:
        return lowest <= bit && bit < 48;
    }
}

/* Every deciding bit of the word that maps the address, one after the other; the walk is asked over the words as they were. */
static void flip(uint64_t arena, const struct scene *s, uint64_t address)
{
    struct end end = end_of(arena, address);
    struct verdict walk = walked((const uint64_t *)arena, &s->layout, address);
    places++;
    for (unsigned bit = 0; bit < 64; bit++) {
        if (!decides(bit, end.level))
            continue;
        *end.place ^= 1ull << bit;
        invalidate();
        flips++;
        caught += !agrees(address, walk);
        *end.place ^= 1ull << bit;
    }
    invalidate();
    if (!agrees(address, walk))
        differ("not as before the flips:", address, walk);
}

bool run_flipped(uint64_t scenes)
{
    static struct scene scene;
    static struct addresses list;
    for (uint64_t n = 0; n < scenes; n++) {
        uint64_t arena = draw_arena();
        unsigned bits = draw_bits();
        draw_scene(&scene, arena, bits);
        encode((uint64_t *)arena, &scene);
        run_under(arena, bits);
        list.count = 0;
        add_scene(&list, &scene);
        for (size_t i = 0; i < list.count; i++) {
            struct verdict grant = granted(&scene, list.at[i]);
            if (grant.reads && in_scratch(grant.pa) && one_in(8))
                flip(arena, &scene, list.at[i]);
        }
    }
    print("flipped: ");
    print_number(scenes);
    print(" scenes");
    print_count(" leaves", places);
    print_count(" bits flipped", flips);
    print_count(" caught", caught);
    print_count(" other differences\n", differences);
    return flips > 0 && caught == flips && differences == 0;
}
