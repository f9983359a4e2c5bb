/* What the program asks of the host, by semihosting, and what its compiler asks of it. */
#ifndef HOST_H
#define HOST_H

#include <stddef.h>
#include <stdint.h>

/* Prints a line: words and numbers, the latter in decimal or hexadecimal. */
void print(const char *text);
void print_number(uint64_t number);
void print_hex(uint64_t number);

/* Ends the run with this status. */
_Noreturn void leave(int status);

/* The words after the program's name. */
size_t arguments(const char *words[], size_t most);
uint64_t number_of(const char *word);
int same_word(const char *a, const char *b);

#endif
