/* The machine as judge: its own translation of an address by the tables in its memory. */
#ifndef MACHINE_H
#define MACHINE_H

#include <stdbool.h>
#include <stdint.h>

/* What a guest does with an address, by the numbers of `judge_translation`. */
enum access { READS, WRITES, EXECUTES_EL0, EXECUTES_EL1, ACCESSES };

/* What an access gives: the byte, or a fault. */
struct translated {
    bool reached;
    uint64_t pa;
};

bool same_translated(struct translated a, struct translated b);

/* What may be done with an address, at EL0 as at EL1, and the byte that it is done to. */
struct verdict {
    bool reads, writes, executes;
    uint64_t pa;
};

bool same_verdict(struct verdict a, struct verdict b);

/* What a verdict gives an access. */
struct translated allowed(struct verdict verdict, enum access access);

/* The machine's memory, and that part of it which nothing but the guests' windows is in: the program and the tables stand below it. */
#define MEMORY_FIRST 0x40000000ull
#define SCRATCH_FIRST 0x50000000ull
#define MEMORY_END 0x100000000ull
bool in_memory(uint64_t pa);
bool in_scratch(uint64_t pa);

/* The regime that is run, S2_VTCR_EL2, and the same with as many output bits as the machine has, up to 48. */
#define BALEEN_OUTPUT_BITS 40

bool has_xnx(void);

/* The output bits of one of the two. */
unsigned draw_bits(void);

/* Puts the machine under a level 1 table, with so many output bits. */
void run_under(uint64_t l1_pa, unsigned bits);

/* What board code owes after it has stored to a table: a barrier, and no translation kept. */
void invalidate(void);

/* Whether the machine gives an access to the address exactly as expected. An instruction is fetched only where it is expected to fault, or to
 * come from scratch memory. */
bool access_agrees(enum access access, uint64_t address, struct translated expected);

/* Whether it gives all of them as expected. */
bool agrees(uint64_t address, struct verdict expected);

/* How many instructions were fetched, and how many were not since they would not come from scratch memory. */
extern uint64_t fetches, unfetched;

/* Prints what is expected of an address, or of one access to it, and what the machine gives. */
void print_difference(uint64_t address, struct verdict expected);
void print_access_difference(enum access access, uint64_t address, struct translated expected);

#endif
