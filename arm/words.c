#include "words.h"

#include "random.h"
#include "scene.h"

#define STEPS_A_SCENE 64
#define WALKS_A_SCENE 64
#define LAYOUT_NUMBERS (sizeof(struct s2_layout) / sizeof(uint64_t))

static uint64_t digest;

/* FNV-1a, by words. */
static void note(uint64_t word)
{
    digest = (digest ^ word) * 0x100000001B3;
}

static void note_answer(uint32_t row, const uint64_t values[8])
{
    note(row);
    for (int i = 0; i < 8; i++)
        note(values[i]);
}

static void note_words(const uint64_t *words)
{
    for (size_t i = 0; i < S2_ARENA_LEN; i++)
        note(words[i]);
}

static void note_maps(const struct scene *s)
{
    for (size_t i = 0; i < s->base_len; i++)
        note(s->base[i]);
    for (size_t i = 0; i < s->sup_len; i++)
        note(s->sup[i]);
}

/* The filling and the checks, from records and from rows. */
static void note_filling(struct scene *s)
{
    static uint32_t rows[MOST_EDGES][6];
    const uint32_t grants[2][4] = {{7, DOMAIN, (uint32_t)below(8), 1}, {7, DOMAIN, (uint32_t)below(8), 0}};
    uint64_t values[8];
    uint32_t span = (uint32_t)below(4);
    for (size_t i = 0; i < s->edge_count; i++) {
        struct s2_edge e = s->edges[i];
        uint32_t row[6] = {e.parent, e.slot, e.child, e.writable, e.leaf, e.execute};
        for (int j = 0; j < 6; j++)
            rows[i][j] = row[j];
    }
    note_answer(s2_fill_edges(s->edges, s->edge_count, frames, FRAMES, DOMAIN, MAPS(s), values), values);
    note_maps(s);
    note_answer(s2_fill((const uint32_t(*)[6])rows, s->edge_count, frames, FRAMES, DOMAIN, MAPS(s), values), values);
    note_maps(s);
    note_answer(s2_exact_edges(DOMAIN, s->base, s->base_len, span, s->edges, s->edge_count, frames, FRAMES, values), values);
    note_answer(s2_exact(DOMAIN, s->sup, s->sup_len, span, (const uint32_t(*)[6])rows, s->edge_count, frames, FRAMES, values), values);
    note_answer(s2_authorized(DOMAIN, s->base, s->base_len, frames, FRAMES, grants, 2, values), values);
}

/* Another number in one place of the layout: near it, or any. Another child and flag of an edge. */
static void change(struct scene *s)
{
    uint64_t *number = (uint64_t *)&s->layout + below(LAYOUT_NUMBERS);
    *number = one_in(2) ? *number ^ 1ull << below(64) : any_number() >> below(64);
    if (s->edge_count) {
        struct s2_edge *edge = &s->edges[below(s->edge_count)];
        edge->child = (uint32_t)below(S2_MAP_LEN + 8);
        edge->leaf = one_in(2);
    }
}

static void note_tables(const struct scene *s)
{
    static uint64_t arena[S2_ARENA_LEN];
    const struct s2_layout *l = &s->layout;
    uint64_t values[8];
    note_answer(s2_validate(l, values), values);
    note_answer(s2_exposed(l, values), values);
    note_answer(s2_encode(arena, S2_ARENA_LEN, MAPS(s), l, values), values);
    note_words(arena);
    note_answer(s2_verify(arena, S2_ARENA_LEN, MAPS(s), l, values), values);
    for (int i = 0; i < WALKS_A_SCENE; i++) {
        uint64_t x = one_in(2) ? l->data_ipa_base + below(TABLE_LEN * PAGE) : l->sup_ipa_base + below(8 * BLOCK);
        note_answer(s2_walk(arena, S2_ARENA_LEN, TABLES_OF(l), x, values), values);
    }
    for (int i = 0; i < STEPS_A_SCENE; i++)
        note_answer(s2_step(arena, S2_ARENA_LEN, MAPS(s), l, below(S2_STEPS + 1), values), values);
    note_words(arena);
}

uint64_t digest_of_words(uint64_t scenes)
{
    static struct scene scene;
    digest = 0xCBF29CE484222325;
    for (uint64_t n = 0; n < scenes; n++) {
        draw_scene(&scene, draw_arena(), 40);
        note_filling(&scene);
        note_tables(&scene);
        change(&scene);
        note_filling(&scene);
        note_tables(&scene);
    }
    return digest;
}
