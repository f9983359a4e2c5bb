/* Stage-2 translation tables for board code: the calls of libs2.a.
 *
 * A call returns 0 where it accepts, else the number of the row that refuses: document 01's up to 26, 27 is change request M-100's. `values`
 * always has all its eight places written: the values that the row carries, in the order below, and zeros after them. Where no row refuses,
 * s2_walk and s2_exposed tell there what they find and s2_annex how many bytes it has written, and all other calls leave zeros. An optional
 * value is 1 and the value, or 0 and zeros. A call that refuses changes nothing but `values`; s2_fill and s2_fill_edges alone leave in both
 * maps, on 15 and 16, the edges before the failing one, and on 17 all edges.
 *
 * Nothing is asked of the numbers. Each pointer is aligned, not null, and to as many elements as the length beside it or its own type
 * says; what a call may write overlaps nothing else that it is lent. What is const is read alone, and not kept.
 *
 * row     carries
 * 1, 2    nothing
 * 3       map, position
 * 4       base, length
 * 5       frame_size
 * 6       check, base, align
 * 7       table, pa
 * 8       count
 * 9       l1 index, span
 * 10      window, output base
 * 11      l1 index
 * 12      nothing
 * 13      first table, second table
 * 14      position
 * 15      parent
 * 16      child, capacity
 * 17      frame
 * 18      table, index, table pa found (optional), pa expected
 * 19      leaf found (optional), pa expected
 * 20      frame, leaf found (optional), pa and access expected (optional)
 * 21      table, index, word
 * 22      index, word
 * 23      domain, frame, owner (optional), permission
 * 24      domain, frame, owner
 * 25      domain, frame, mapped, expected
 * 26, 27  nothing
 *
 * Codes: maps and spans 1 base, 2 super (the one map of s2_authorized is 1); windows 1 image, 2 data, 3 super, 4 device; tables 1 l1,
 * 2 l2_code, 3 l2_data, 4 l3_data, 5 l2_sup, 6 l2_dev; checks 1 data ipa, 2 data pa, 3 super ipa, 4 super pa, 5 image, 6 device.
 * A permission, and an entry of a map, is 0 none, 1 Ro, 2 Rw, 3 Rx. A leaf is pa, access and never: an access is 1 Ro or 2 Rw, and
 * never is 1 where it is never executed, else 0; an Rx entry is a leaf with access 1 and never 0.
 */
#ifndef DERVHALT_S2_H
#define DERVHALT_S2_H

#include <stdbool.h>
#include <stddef.h>
#include <stdint.h>

#ifdef __cplusplus
extern "C" {
#endif

/* The words of an arena: tables 1 to 6 of 512 words each. */
#define S2_ARENA_LEN 3072

/* The steps of an update: 0 to S2_STEPS - 1. */
#define S2_STEPS 6144

/* The most entries of a map. */
#define S2_MAP_LEN 512

/* The bytes of the longest annex page: 1,026 lines and the last. With a buffer of so many bytes 27 never refuses. */
#define S2_ANNEX_MAX 41080

/* Spans. */
#define S2_BASE 1
#define S2_SUPER 2

/* The tables. */
#define S2_TABLE_COUNT 6

/* The value of VTCR_EL2 that the tables are made for: 4 KB granule, 39-bit input, start level 1, 40-bit output, 8-bit VMID. */
#define S2_VTCR_EL2 0x80023559ull

/* A layout: document 01's sixteen fields in their order, with whether there is an image just before the image. Of `has_image` and
 * `sup_wx_exempt`, zero is no and all else yes. */
struct s2_layout {
    uint64_t l1_pa;
    uint64_t l2_code_pa;
    uint64_t l2_data_pa;
    uint64_t l3_data_pa;
    uint64_t l2_sup_pa;
    uint64_t l2_dev_pa;
    uint64_t has_image;
    uint64_t guest_image_pa;
    uint64_t data_ipa_base;
    uint64_t data_pa_base;
    uint64_t frame_size;
    uint64_t sup_ipa_base;
    uint64_t sup_pa_base;
    uint64_t device_base;
    uint64_t device_len;
    uint64_t sup_wx_exempt;
    uint64_t sup_frames;
};

/* An edge as a record of sixteen bytes. A flag's byte is 0 or 1; the last byte is padding and may be any. */
struct s2_edge {
    uint32_t parent;
    uint32_t slot;
    uint32_t child;
    bool writable;
    bool leaf;
    bool execute;
};

/* Whether the layout can be encoded: rows 4 to 12. */
uint32_t s2_validate(const struct s2_layout *layout, uint64_t values[8]);

/* Both maps from the domain's edges: rows 2 and 15 to 17. An edge is parent, slot, child, writable, leaf, execute, of which the last
 * three are zero for no and all else for yes; a frame is owner and kind. */
uint32_t s2_fill(
    const uint32_t (*edges)[6], size_t edge_count,
    const uint32_t (*frames)[2], size_t frame_count,
    uint16_t dom,
    uint8_t *base, size_t base_len,
    uint8_t *sup, size_t sup_len,
    uint64_t values[8]);

/* The same, from edges as records. They are read in order and not kept. */
uint32_t s2_fill_edges(
    const struct s2_edge *edges, size_t edge_count,
    const uint32_t (*frames)[2], size_t frame_count,
    uint16_t dom,
    uint8_t *base, size_t base_len,
    uint8_t *sup, size_t sup_len,
    uint64_t values[8]);

/* The tables of a layout and two maps: rows 1 to 14. Tables 4 to 6 are cleared first; in 1 to 3 old words remain unless overwritten. */
uint32_t s2_encode(
    uint64_t *arena, size_t arena_len,
    const uint8_t *base, size_t base_len,
    const uint8_t *sup, size_t sup_len,
    const struct s2_layout *layout,
    uint64_t values[8]);

/* One step of an update to the tables of a layout and two maps: rows 1 to 14, then 26. A step makes one store: below S2_ARENA_LEN, 0 at
 * word `step`; from there on, at word S2_STEPS - 1 - `step`, what encoding into zeros leaves there. Steps are made in order, from 0 on, and
 * an update that was cut is begun again at 0. Up to half-way, S2_ARENA_LEN stores, an address reaches what it reached before the update or
 * nothing; from there on what it is granted or nothing; after the last store what it is granted. For this, the layout, and the edges, frames
 * and domain that both maps are filled from, are the same through one update, the table addresses through all, and nothing else stores to
 * the arena. Barriers and cached translations are the caller's. */
uint32_t s2_step(
    uint64_t *arena, size_t arena_len,
    const uint8_t *base, size_t base_len,
    const uint8_t *sup, size_t sup_len,
    const struct s2_layout *layout,
    uint64_t step,
    uint64_t values[8]);

/* What an address reaches: row 1. `tables` has the addresses of tables 1 to 6. The walk starts at the first; a fetch reads the first table
 * whose address is exactly the one named, else zero. It tells 1 and the leaf, with the offset of the address joined to pa, or zeros where
 * it reaches nothing. */
uint32_t s2_walk(
    const uint64_t *arena, size_t arena_len,
    const uint64_t tables[S2_TABLE_COUNT],
    uint64_t ipa,
    uint64_t values[8]);

/* Whether the arena is what the layout and the maps are encoded to: rows 1 to 12 and 18 to 22. It accepts words that the decoders
 * read as nothing and does not read a device's access, so what it accepts does not bound a walk. */
uint32_t s2_verify(
    const uint64_t *arena, size_t arena_len,
    const uint8_t *base, size_t base_len,
    const uint8_t *sup, size_t sup_len,
    const struct s2_layout *layout,
    uint64_t values[8]);

/* Whether a table lies in the output of a window: rows 4 to 12. It tells 1, the lowest such table and the lowest window that it lies
 * in, or zeros where there is none. */
uint32_t s2_exposed(const struct s2_layout *layout, uint64_t values[8]);

/* The annex page of a layout and two maps: rows 2 to 14, then 27, where the page is longer than the buffer. It lists every address that
 * reaches something over the tables that s2_encode makes of them from zeros, and no other: a line of 40 bytes for each longest run of
 * addresses with continuous output and equal access, in address order. A line is the first and the last address in 10 upper-case
 * hexadecimal digits each, the output of the first in 12, RO or RW, X where it is executable, else -, with one space between, and a line
 * feed. The last line is 39 equals signs and a line feed. It tells how many bytes the page has: they are the front of the buffer, no zero
 * ends them, and the rest of the buffer stays. */
uint32_t s2_annex(
    uint8_t *page, size_t page_len,
    const uint8_t *base, size_t base_len,
    const uint8_t *sup, size_t sup_len,
    const struct s2_layout *layout,
    uint64_t values[8]);

/* Whether the domain may reach every frame that the map maps: rows 2, 3, 23 and 24. A grant is grantor, grantee, frame, writable. */
uint32_t s2_authorized(
    uint16_t dom,
    const uint8_t *map, size_t map_len,
    const uint32_t (*frames)[2], size_t frame_count,
    const uint32_t (*grants)[4], size_t grant_count,
    uint64_t values[8]);

/* Whether the map is what the domain's edges give: rows 2, 3 and 25. Of `span`, S2_SUPER is the super span and all else base. */
uint32_t s2_exact(
    uint16_t dom,
    const uint8_t *map, size_t map_len,
    uint32_t span,
    const uint32_t (*edges)[6], size_t edge_count,
    const uint32_t (*frames)[2], size_t frame_count,
    uint64_t values[8]);

/* The same, from edges as records. They are read in order and not kept. */
uint32_t s2_exact_edges(
    uint16_t dom,
    const uint8_t *map, size_t map_len,
    uint32_t span,
    const struct s2_edge *edges, size_t edge_count,
    const uint32_t (*frames)[2], size_t frame_count,
    uint64_t values[8]);

#ifdef __cplusplus
}
#endif

#endif
