/* The runs, each over so many scenes. */
#ifndef RUNS_H
#define RUNS_H

#include <stdbool.h>
#include <stddef.h>
#include <stdint.h>

#include "machine.h"

/* Over what the port encodes and updates, cut anywhere: the walk, the machine, the grants and the annex page agree. */
bool run_emitted(uint64_t scenes);

/* Over any words: the machine translates as the definition says, and the walk differs from it where docs/DIFFERENCES.md says so. */
bool run_wild(uint64_t scenes);

/* One bit flipped in an encoded leaf: the comparison notices. */
bool run_flipped(uint64_t scenes);

/* The digest of the port's answers, which the same library on another machine must give too. */
bool run_words(uint64_t scenes);

/* A count and its name, as part of a line. */
void print_count(const char *name, uint64_t count);

/* Whether each of these counts is above 0; a run that has not seen all is no evidence. */
bool all_seen(const uint64_t counts[], size_t count);

/* Notes a difference, of which the first few are printed. */
void differ(const char *what, uint64_t address, struct verdict expected);
void differ_in(const char *what, enum access access, uint64_t address, struct translated expected);
extern uint64_t differences;

#endif
