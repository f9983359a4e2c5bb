/* A descent through the tables in memory: the places outside the arena that it can read, and where it ends. Nothing is judged by it: the places are
 * handed to the definition, and the end names the cause of a difference and the word that is flipped. */
#ifndef DESCENT_H
#define DESCENT_H

#include <stdbool.h>
#include <stddef.h>
#include <stdint.h>

/* Bits of a descriptor. */
#define VALID (1ull << 0)
#define TABLE_OR_PAGE (1ull << 1)
#define S2AP(d) ((d) >> 6 & 3)
#define ACCESS_FLAG (1ull << 10)
#define ADDRESS 0x0000FFFFFFFFF000ull
#define XN(d) ((d) >> 53 & 3)

#define LEVELS 3

/* What stands outside the arena at the place of each level, by the address fields alone, whatever the words' types: the table named, the index, the
 * word. What is not in the machine's memory cannot be read, and ends the list. */
struct places {
    uint64_t at[LEVELS][3];
    size_t count;
};

struct places places_of(uint64_t arena, uint64_t address);

/* The level and the place of the word that leads to no table, and whether a table on the way is not one of the arena's. */
struct end {
    unsigned level;
    uint64_t *place;
    bool outside;
};

struct end end_of(uint64_t arena, uint64_t address);

#endif
