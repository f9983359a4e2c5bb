/* Document 01's scene S, as board code in C has it: maps from edges, tables, walks, the annex page and an update. */
#include <inttypes.h>
#include <stdio.h>
#include <stdlib.h>

#include "dervhalt_s2.h"

#define DOMAIN 3
#define SUPERS 4

static const struct s2_layout layout = {
    .l1_pa = 0x40000000,
    .l2_code_pa = 0x40001000,
    .l2_data_pa = 0x40002000,
    .l3_data_pa = 0x40003000,
    .l2_sup_pa = 0x40004000,
    .l2_dev_pa = 0x40005000,
    .has_image = 0,
    .data_ipa_base = 0x80000000,
    .data_pa_base = 0x50000000,
    .frame_size = 0x1000,
    .sup_ipa_base = 0xC0000000,
    .sup_pa_base = 0x60000000,
    .device_base = 0x9000000,
    .device_len = 0x200000,
    .sup_wx_exempt = 0,
    .sup_frames = SUPERS,
};

/* Owner and kind of each frame. The domain owns frames 1 to 4; its tables are 3, of pages, and 4, of blocks. */
static const uint32_t frames[5][2] = {{65536, 0}, {DOMAIN, 1}, {DOMAIN, 0}, {DOMAIN, 2}, {DOMAIN, 3}};

/* Frame 1 is a page for writing, frame 2 a block of code. */
static struct s2_edge edges[2] = {
    {.parent = 3, .slot = 0, .child = 1, .writable = true, .leaf = true, .execute = false},
    {.parent = 4, .slot = 0, .child = 2, .writable = false, .leaf = true, .execute = true},
};

/* On a board these words stand at the addresses of the layout's tables. */
static uint64_t arena[S2_ARENA_LEN];
static uint8_t base[S2_MAP_LEN], sup[SUPERS];
static uint8_t page[S2_ANNEX_MAX];
static uint64_t values[8];

/* Stops where a call refuses. */
static void accepted(const char *call, uint32_t row)
{
    if (row == 0)
        return;
    printf("%s: refused by row %" PRIu32, call, row);
    for (int i = 0; i < 8; i++)
        printf(" %" PRIx64, values[i]);
    printf("\n");
    exit(1);
}

static void fill(void)
{
    accepted("fill", s2_fill_edges(edges, 2, frames, 5, DOMAIN, base, S2_MAP_LEN, sup, SUPERS, values));
}

static void print_map(const char *name, const uint8_t *map, size_t len)
{
    static const char *const permissions[4] = {"none", "Ro", "Rw", "Rx"};
    for (size_t i = 0; i < len; i++)
        if (map[i] != 0)
            printf("maps: %s %zu %s\n", name, i, permissions[map[i]]);
}

/* A filling follows the edges; whether the domain may have these frames is asked apart. */
static void check_maps(void)
{
    accepted("exact", s2_exact_edges(DOMAIN, base, S2_MAP_LEN, S2_BASE, edges, 2, frames, 5, values));
    accepted("exact", s2_exact_edges(DOMAIN, sup, SUPERS, S2_SUPER, edges, 2, frames, 5, values));
    static const uint32_t none[1][4];
    accepted("authorized", s2_authorized(DOMAIN, base, S2_MAP_LEN, frames, 5, none, 0, values));
    accepted("authorized", s2_authorized(DOMAIN, sup, SUPERS, frames, 5, none, 0, values));
    printf("maps: as the edges give them, and all frames are the domain's own\n");
}

static void print_words(void)
{
    for (int i = 0; i < S2_ARENA_LEN; i++)
        if (arena[i] != 0)
            printf("%X %03X %016" PRIX64 "\n", i / 512 + 1, i % 512, arena[i]);
}

static void walk(const char *what, uint64_t ipa)
{
    const uint64_t tables[S2_TABLE_COUNT] = {
        layout.l1_pa, layout.l2_code_pa, layout.l2_data_pa, layout.l3_data_pa, layout.l2_sup_pa, layout.l2_dev_pa,
    };
    accepted("walk", s2_walk(arena, S2_ARENA_LEN, tables, ipa, values));
    printf("%s: 0x%" PRIx64 " reaches ", what, ipa);
    if (values[0] == 0)
        printf("nothing\n");
    else
        printf("0x%" PRIx64 ", %s, %s\n", values[1], values[2] == 2 ? "Rw" : "Ro", values[3] ? "never executed" : "executable");
}

static void verify(void)
{
    accepted("verify", s2_verify(arena, S2_ARENA_LEN, base, S2_MAP_LEN, sup, SUPERS, &layout, values));
}

/* Before the tables are in use, so that no walker sees the stores in between. */
static void encode(void)
{
    accepted("encode", s2_encode(arena, S2_ARENA_LEN, base, S2_MAP_LEN, sup, SUPERS, &layout, values));
    /* DSB ISHST, ISB: only then VTTBR_EL2 names the tables. ISB, TLBI VMALLS12E1IS, DSB ISH, ISB: only then the guest runs. */
}

/* All that the guest reaches, for the supply contract. */
static void print_annex(void)
{
    accepted("annex", s2_annex(page, S2_ANNEX_MAX, base, S2_MAP_LEN, sup, SUPERS, &layout, values));
    printf("annex page: %" PRIu64 " bytes\n", values[0]);
    fwrite(page, 1, values[0], stdout);
}

/* Takes from the guest that it may write frame 1, while it runs. */
static void update(void)
{
    edges[0].writable = false;
    fill();
    for (uint64_t step = 0; step < S2_STEPS; step++) {
        accepted("step", s2_step(arena, S2_ARENA_LEN, base, S2_MAP_LEN, sup, SUPERS, &layout, step, values));
        if (step + 1 == S2_ARENA_LEN) {
            /* DSB ISHST, TLBI VMALLS12E1IS, DSB ISH, ISB: translations of the old words are cached still. */
            walk("update, half-way", 0x80001234);
        }
    }
    /* DSB ISHST, TLBI VMALLS12E1IS, DSB ISH, ISB: the walkers see all stores before the next update begins. */
    walk("update, ended", 0x80001234);
    verify();
    printf("update: %d stores, verified\n", S2_STEPS);
}

int main(void)
{
    static const uint64_t addresses[8] = {
        0x80001234, 0x80000000, 0x80002000, 0xC0400010, 0xC0800000, 0x9000018, 0x9200000, 0x8080001234,
    };
    accepted("validate", s2_validate(&layout, values));
    printf("layout: accepted\n");
    /* No row refuses a layout that hands a table to the guest. */
    accepted("exposed", s2_exposed(&layout, values));
    if (values[0] != 0) {
        printf("table %" PRIu64 " lies in the output of window %" PRIu64 "\n", values[1], values[2]);
        return 1;
    }
    printf("tables: in the output of no window\n");
    fill();
    print_map("base", base, S2_MAP_LEN);
    print_map("super", sup, SUPERS);
    check_maps();
    encode();
    print_words();
    verify();
    printf("words: verified\n");
    for (int i = 0; i < 8; i++)
        walk("walk", addresses[i]);
    print_annex();
    update();
    return 0;
}
