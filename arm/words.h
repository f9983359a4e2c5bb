/* The port's answers as one number, to be had from the library of two machines. */
#ifndef WORDS_H
#define WORDS_H

#include <stdint.h>

/* Over so many scenes, each with a layout as it is drawn and one with a number changed: every call's answer, and all that it stores. */
uint64_t digest_of_words(uint64_t scenes);

#endif
