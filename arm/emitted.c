#include "addresses.h"
#include "annex.h"
#include "host.h"
#include "random.h"
#include "runs.h"
#include "scene.h"

#define HALF_WAY S2_ARENA_LEN
/* So many scenes in turn have the same tables: the first is encoded, the others are updates. */
#define SCENES_AN_ARENA 8
#define CUTS 18

/* By whether the address is written to and executed. */
static uint64_t reached[2][2];
static uint64_t addresses, cuts, updates, begun_again;

/* The walk and the machine agree; returns what both say. */
static struct verdict judged(const uint64_t *arena, const struct s2_layout *l, uint64_t address)
{
    struct verdict walk = walked(arena, l, address);
    addresses++;
    if (walk.reads)
        reached[walk.writes][walk.executes]++;
    if (!agrees(address, walk))
        differ("the machine differs from the walk:", address, walk);
    return walk;
}

/* The whole scene is reached, and nothing else. */
static void judge_granted(const uint64_t *arena, const struct scene *s, const struct addresses *list)
{
    invalidate();
    for (size_t i = 0; i < list->count; i++) {
        struct verdict grant = granted(s, list->at[i]);
        if (!same_verdict(judged(arena, &s->layout, list->at[i]), grant))
            differ("the walk differs from the grants:", list->at[i], grant);
    }
}

/* After so many stores of an update: what was reached before it, or what is granted, or nothing. */
static void judge_cut(const uint64_t *arena, const struct scene *s, const struct addresses *list,
                      const struct verdict old[], uint64_t stores)
{
    cuts++;
    invalidate();
    for (size_t i = 0; i < list->count; i++) {
        struct verdict now = judged(arena, &s->layout, list->at[i]), nothing = {0};
        struct verdict then = stores < HALF_WAY ? old[i] : stores > HALF_WAY ? granted(s, list->at[i]) : nothing;
        if (!same_verdict(now, then) && !same_verdict(now, nothing))
            differ("neither as before nor as granted:", list->at[i], then);
    }
}

/* One of the first words that is not zero, or any where there is none. */
static uint64_t live_word(const uint64_t *words, uint64_t count)
{
    uint64_t start = below(count);
    for (uint64_t i = 0; i < count; i++)
        if (words[(start + i) % count])
            return (start + i) % count;
    return start;
}

/* Before and after the stores to some words in use, in l1 and anywhere; around half-way, and anywhere. */
static void draw_cuts(uint64_t at[CUTS], const uint64_t *old, const uint64_t *target)
{
    static const uint64_t among[] = {TABLE_LEN, TABLE_LEN, S2_ARENA_LEN};
    size_t n = 0;
    for (int i = 0; i < 3; i++) {
        uint64_t zeroed = live_word(old, among[i]), stored = S2_STEPS - 1 - live_word(target, among[i]);
        at[n++] = zeroed;
        at[n++] = zeroed + 1;
        at[n++] = stored;
        at[n++] = stored + 1;
    }
    at[n++] = 1;
    at[n++] = HALF_WAY - 1;
    at[n++] = HALF_WAY;
    at[n++] = HALF_WAY + 1;
    at[n++] = below(S2_STEPS);
    at[n++] = below(S2_STEPS);
}

static bool is_cut(const uint64_t at[CUTS], uint64_t stores)
{
    for (size_t i = 0; i < CUTS; i++)
        if (at[i] == stores)
            return true;
    return false;
}

/* An update, by one store a call, which may end before its last step. */
static bool update(uint64_t *arena, const struct scene *s, const struct addresses *list)
{
    static uint64_t target[S2_ARENA_LEN];
    static struct verdict old[MOST_ADDRESSES];
    uint64_t at[CUTS], values[8], end = one_in(4) ? below(S2_STEPS) : S2_STEPS;
    for (size_t i = 0; i < list->count; i++)
        old[i] = walked(arena, &s->layout, list->at[i]);
    encode(target, s);
    draw_cuts(at, arena, target);
    for (uint64_t step = 0; step < end; step++) {
        if (is_cut(at, step))
            judge_cut(arena, s, list, old, step);
        uint32_t row = s2_step(arena, S2_ARENA_LEN, MAPS(s), &s->layout, step, values);
        if (row)
            refused("a step", row);
    }
    updates++;
    return end == S2_STEPS;
}

static void report(uint64_t scenes)
{
    print("emitted: ");
    print_number(scenes);
    print(" scenes");
    print_count(" updates", updates);
    print_count(" cut and begun again", begun_again);
    print_count(" cuts", cuts);
    print_count(" addresses", addresses);
    print_count(" reached Ro", reached[0][0]);
    print_count(" Ro executable", reached[0][1]);
    print_count(" Rw", reached[1][0]);
    print_count(" Rw executable", reached[1][1]);
    print_count(" lines of annex pages", annex_lines);
    print_count(" addresses asked for them", annex_addresses);
    print_count(" fetches", fetches);
    print_count(" not fetched", unfetched);
    print_count(" differences\n", differences);
}

/* The addresses of the scene before, as many as leave room, and those of the scene. */
static void add_both(struct addresses *list, const struct scene *before, const struct scene *scene)
{
    list->count = 0;
    add_scene(list, scene);
    if (before)
        add_scene(list, before);
}

bool run_emitted(uint64_t scenes)
{
    static struct scene two[2];
    static struct addresses list;
    uint64_t *arena = 0;
    unsigned bits = 0;
    for (uint64_t n = 0; n < scenes; n++) {
        struct scene *scene = &two[n % 2];
        bool first = n % SCENES_AN_ARENA == 0, whole = true;
        if (first) {
            arena = (uint64_t *)draw_arena();
            bits = draw_bits();
        }
        draw_scene(scene, (uint64_t)arena, bits);
        add_both(&list, first ? 0 : &two[(n + 1) % 2], scene);
        run_under((uint64_t)arena, bits);
        if (first)
            encode(arena, scene);
        else
            whole = update(arena, scene, &list);
        begun_again += !whole;
        if (whole) {
            judge_granted(arena, scene, &list);
            judge_annex(scene, &list);
        }
    }
    report(scenes);
    return differences == 0 && all_seen(reached[0], 2) && all_seen(reached[1], 2) && all_seen(&annex_lines, 1);
}
