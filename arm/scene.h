/* What board code hands to the port: a layout, and maps that the port fills from edges. */
#ifndef SCENE_H
#define SCENE_H

#include <stddef.h>
#include <stdint.h>

#include "dervhalt_s2.h"
#include "machine.h"

#define PAGE 0x1000ull
#define BLOCK 0x200000ull
#define L1_SPAN 0x40000000ull
#define INPUT_LIMIT (1ull << 39)
#define TABLE_LEN 512

/* The addresses of a layout's tables, as a walk is lent them. */
#define TABLES_OF(l) \
    ((const uint64_t[S2_TABLE_COUNT]){(l)->l1_pa, (l)->l2_code_pa, (l)->l2_data_pa, (l)->l3_data_pa, (l)->l2_sup_pa, (l)->l2_dev_pa})

/* The domain whose maps are filled, and the frames that its edges come from. */
#define DOMAIN 3
#define FRAMES 6
extern const uint32_t frames[FRAMES][2];

#define MOST_EDGES 96

struct scene {
    struct s2_layout layout;
    struct s2_edge edges[MOST_EDGES];
    size_t edge_count;
    uint8_t base[S2_MAP_LEN], sup[S2_MAP_LEN];
    size_t base_len, sup_len;
};

#define MAPS(s) (s)->base, (s)->base_len, (s)->sup, (s)->sup_len

/* A place for an arena: its six tables one after the other. */
uint64_t draw_arena(void);

/* A layout that has nothing but these tables. */
struct s2_layout tables_at(uint64_t arena);

/* A scene over the tables at a place, whose outputs have so many bits, that the port accepts and in which no table is in reach. */
void draw_scene(struct scene *scene, uint64_t arena, unsigned bits);

/* What the port encodes into zeros; a refusal ends the run. */
void encode(uint64_t *arena, const struct scene *scene);
_Noreturn void refused(const char *call, uint32_t row);

/* What document 01 grants an address. */
struct verdict granted(const struct scene *scene, uint64_t address);

/* What the port's walk reaches. */
struct verdict walked(const uint64_t *arena, const struct s2_layout *layout, uint64_t address);

#endif
