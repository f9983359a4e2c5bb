#include "scene.h"

#include "host.h"
#include "random.h"

#define TRIES 1000
#define ARENAS_FIRST 0x48000000ull
#define ARENAS_END 0x4C000000ull

/* Parents: the domain's base and super tables, two that are not its own, one of a kind that has no leaves here, one of no kind. */
const uint32_t frames[FRAMES][2] = {{DOMAIN, 2}, {DOMAIN, 3}, {7, 2}, {70000, 3}, {DOMAIN, 4}, {DOMAIN, 0}};
#define BASE_PARENT 0
#define SUPER_PARENT 1

uint64_t draw_arena(void)
{
    return ARENAS_FIRST + below((ARENAS_END - ARENAS_FIRST) / PAGE - S2_TABLE_COUNT) * PAGE;
}

/* Mostly in scratch memory, where instructions can be fetched; else anywhere, or at the very end. */
static uint64_t draw_output(uint64_t align, uint64_t span, unsigned bits)
{
    uint64_t end = 1ull << bits;
    if (one_in(16))
        return (end - span) & -align;
    if (one_in(4))
        return below((end - span) / align) * align;
    return SCRATCH_FIRST + below((MEMORY_END - SCRATCH_FIRST - span) / align) * align;
}

static uint64_t draw_input(uint64_t blocks)
{
    return below(TABLE_LEN) * L1_SPAN + below(TABLE_LEN - blocks + 1) * BLOCK;
}

struct s2_layout tables_at(uint64_t arena)
{
    return (struct s2_layout){
        .l1_pa = arena,
        .l2_code_pa = arena + 1 * PAGE,
        .l2_data_pa = arena + 2 * PAGE,
        .l3_data_pa = arena + 3 * PAGE,
        .l2_sup_pa = arena + 4 * PAGE,
        .l2_dev_pa = arena + 5 * PAGE,
    };
}

static void draw_layout(struct s2_layout *l, uint64_t arena, unsigned bits)
{
    uint64_t few = below(9), device_blocks = one_in(4) ? 0 : 1 + below(one_in(4) ? TABLE_LEN : 4);
    *l = tables_at(arena);
    l->frame_size = PAGE;
    l->has_image = !one_in(4);
    l->guest_image_pa = one_in(4) ? draw_input(1) : draw_output(BLOCK, BLOCK, 39);
    l->data_ipa_base = draw_input(1);
    l->data_pa_base = draw_output(PAGE, TABLE_LEN * PAGE, bits);
    l->sup_frames = one_in(4) ? below(TABLE_LEN + 1) : few;
    l->sup_ipa_base = draw_input(l->sup_frames);
    l->sup_pa_base = draw_output(BLOCK, l->sup_frames * BLOCK, bits);
    l->device_base = draw_input(device_blocks);
    l->device_len = device_blocks * BLOCK;
    l->sup_wx_exempt = one_in(2);
}

/* Each frame is of one span, so that few lists are refused by 17. */
static bool is_super(uint64_t spans, uint32_t child)
{
    return (spans * (2 * child + 1)) >> 63;
}

static void draw_edges(struct scene *s)
{
    uint64_t spans = any_number(), sup_frames = s->layout.sup_frames;
    size_t draws = below(MOST_EDGES + 1);
    s->edge_count = 0;
    while (draws--) {
        bool to_super = sup_frames && one_in(2);
        uint32_t child = (uint32_t)below(to_super ? sup_frames : S2_MAP_LEN);
        bool skipped = one_in(8);
        uint32_t parent = skipped ? (uint32_t)below(FRAMES + 1) : to_super ? SUPER_PARENT : BASE_PARENT;
        if (skipped || is_super(spans, child) == to_super)
            s->edges[s->edge_count++] =
                (struct s2_edge){parent, (uint32_t)below(512), child, one_in(2), !skipped, one_in(2)};
    }
}

/* Whether the port accepts the layout and no table lies in an output window. */
static bool layout_serves(const struct s2_layout *l)
{
    uint64_t values[8];
    return !s2_validate(l, values) && !s2_exposed(l, values) && !values[0];
}

static bool fill(struct scene *s)
{
    uint64_t values[8];
    draw_edges(s);
    s->base_len = one_in(4) ? 400 + below(S2_MAP_LEN - 400 + 1) : S2_MAP_LEN;
    s->sup_len = one_in(4) ? s->layout.sup_frames : S2_MAP_LEN;
    return !s2_fill_edges(s->edges, s->edge_count, frames, FRAMES, DOMAIN, s->base, s->base_len, s->sup, s->sup_len, values);
}

void draw_scene(struct scene *s, uint64_t arena, unsigned bits)
{
    for (int tries = 0; tries < TRIES; tries++) {
        draw_layout(&s->layout, arena, bits);
        if (layout_serves(&s->layout) && fill(s))
            return;
    }
    print("the port accepts none of the layouts\n");
    leave(2);
}

_Noreturn void refused(const char *call, uint32_t row)
{
    print(call);
    print(" refused by ");
    print_number(row);
    print("\n");
    leave(2);
}

void encode(uint64_t *arena, const struct scene *s)
{
    uint64_t values[8];
    for (size_t i = 0; i < S2_ARENA_LEN; i++)
        arena[i] = 0;
    uint32_t row = s2_encode(arena, S2_ARENA_LEN, MAPS(s), &s->layout, values);
    if (row)
        refused("encoding", row);
}

static struct verdict by_entry(uint8_t entry, uint64_t pa, bool exempt)
{
    return (struct verdict){entry != 0, entry == 2, entry == 3 || (entry == 2 && exempt), pa};
}

static struct verdict by_map(const uint8_t *map, size_t len, uint64_t position, uint64_t pa, bool exempt)
{
    return by_entry(position < len ? map[position] : 0, pa, exempt);
}

struct verdict granted(const struct scene *s, uint64_t x)
{
    const struct s2_layout *l = &s->layout;
    uint64_t in_data = x - l->data_ipa_base, in_super = x - l->sup_ipa_base;
    if (l->has_image && x - l->guest_image_pa < BLOCK)
        return (struct verdict){true, false, true, x};
    if (x - l->device_base < l->device_len)
        return (struct verdict){true, true, false, x};
    if (in_data < TABLE_LEN * PAGE)
        return by_map(s->base, s->base_len, in_data / PAGE, l->data_pa_base + in_data, false);
    if (in_super < l->sup_frames * BLOCK)
        return by_map(s->sup, s->sup_len, in_super / BLOCK, l->sup_pa_base + in_super, l->sup_wx_exempt);
    return (struct verdict){0};
}

struct verdict walked(const uint64_t *arena, const struct s2_layout *l, uint64_t address)
{
    uint64_t values[8];
    uint32_t row = s2_walk(arena, S2_ARENA_LEN, TABLES_OF(l), address, values);
    if (row)
        refused("a walk", row);
    bool reached = values[0], writes = values[2] == 2, never = values[3];
    return (struct verdict){reached, reached && writes, reached && !never, values[1]};
}
