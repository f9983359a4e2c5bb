#include "host.h"

#define SYS_WRITE0 0x04
#define SYS_GET_CMDLINE 0x15
#define SYS_EXIT 0x18
#define APPLICATION_EXIT 0x20026

static uint64_t ask(uint64_t call, const void *block)
{
    register uint64_t x0 __asm__("x0") = call;
    register const void *x1 __asm__("x1") = block;
    __asm__ volatile("hlt #0xf000" : "+r"(x0) : "r"(x1) : "memory");
    return x0;
}

void print(const char *text)
{
    ask(SYS_WRITE0, text);
}

static void print_in(uint64_t number, unsigned radix)
{
    char digits[24];
    char *at = digits + sizeof digits - 1;
    *at = 0;
    do {
        *--at = "0123456789ABCDEF"[number % radix];
        number /= radix;
    } while (number);
    print(at);
}

void print_number(uint64_t number)
{
    print_in(number, 10);
}

void print_hex(uint64_t number)
{
    print_in(number, 16);
}

_Noreturn void leave(int status)
{
    uint64_t block[2] = {APPLICATION_EXIT, (uint64_t)status};
    for (;;)
        ask(SYS_EXIT, block);
}

size_t arguments(const char *words[], size_t most)
{
    static char line[256];
    uint64_t block[2] = {(uint64_t)line, sizeof line};
    size_t count = 0;
    if (ask(SYS_GET_CMDLINE, block))
        return 0;
    for (char *at = line; *at && count < most; count++) {
        words[count] = at;
        while (*at && *at != ' ')
            at++;
        while (*at == ' ')
            *at++ = 0;
    }
    return count;
}

uint64_t number_of(const char *word)
{
    uint64_t number = 0;
    for (; *word; word++)
        number = number * 10 + (uint64_t)(*word - '0');
    return number;
}

int same_word(const char *a, const char *b)
{
    while (*a && *a == *b)
        a++, b++;
    return *a == *b;
}

/* An exception of the program's own: the run fails. */
_Noreturn void stopped(uint64_t esr, uint64_t elr, uint64_t far)
{
    print("stopped by an exception: ESR ");
    print_hex(esr);
    print(", ELR ");
    print_hex(elr);
    print(", FAR ");
    print_hex(far);
    print("\n");
    leave(3);
}

/* The compiler calls these two; built without builtins, they do not call themselves. */
void *memset(void *to, int byte, size_t count)
{
    uint8_t *at = to;
    while (count--)
        *at++ = (uint8_t)byte;
    return to;
}

void *memcpy(void *to, const void *from, size_t count)
{
    uint8_t *at = to;
    const uint8_t *source = from;
    while (count--)
        *at++ = *source++;
    return to;
}
