#include "addresses.h"

#include "random.h"

#define ENTRIES_A_MAP 8

void add_address(struct addresses *list, uint64_t address)
{
    if (list->count < MOST_ADDRESSES)
        list->at[list->count++] = address;
}

/* The ends of a range and what stands next to them. */
static void add_range(struct addresses *list, uint64_t first, uint64_t span)
{
    add_address(list, first - 1);
    add_address(list, first);
    add_address(list, first + span - 1);
    add_address(list, first + span);
}

static void add_window(struct addresses *list, uint64_t first, uint64_t span)
{
    uint64_t slot = first & -L1_SPAN;
    add_range(list, first, span);
    add_range(list, slot, L1_SPAN);
    add_address(list, first + INPUT_LIMIT);
    for (int i = 0; i < 4 && span; i++)
        add_address(list, first + below(span));
}

/* Some of the mapped entries, and one that may not be mapped. */
static void add_entries(struct addresses *list, const uint8_t *map, size_t len, uint64_t first, uint64_t unit)
{
    size_t added = 0, start = len ? below(len) : 0;
    for (size_t i = 0; i < len && added < ENTRIES_A_MAP; i++) {
        uint64_t position = (start + i) % len;
        if (!map[position])
            continue;
        add_range(list, first + position * unit, unit);
        add_address(list, first + position * unit + below(unit));
        add_address(list, first + position * unit + INPUT_LIMIT);
        added++;
    }
}

void add_scene(struct addresses *list, const struct scene *s)
{
    const struct s2_layout *l = &s->layout;
    if (l->has_image)
        add_window(list, l->guest_image_pa, BLOCK);
    add_window(list, l->data_ipa_base, TABLE_LEN * PAGE);
    add_window(list, l->sup_ipa_base, l->sup_frames * BLOCK);
    add_window(list, l->device_base, l->device_len);
    add_entries(list, s->base, s->base_len, l->data_ipa_base, PAGE);
    add_entries(list, s->sup, s->sup_len, l->sup_ipa_base, BLOCK);
    for (int i = 0; i < 4; i++)
        add_address(list, below(INPUT_LIMIT));
    add_range(list, 0, INPUT_LIMIT);
    add_address(list, INPUT_LIMIT + below(INPUT_LIMIT));
    add_address(list, any_number() >> 16);
    add_address(list, any_number());
}
