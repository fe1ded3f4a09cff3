/* Traps, and what the compiler may call on the machine. */
#include <stddef.h>

#include "guest.h"

enum { INTERRUPT = 0x80000000u, EXTERNAL = INTERRUPT | 11, SOFTWARE = INTERRUPT | 3, TIMER = INTERRUPT | 7 };

/* A hart without work of its own for an interrupt lets it pass. */
__attribute__((weak)) void on_word(uint32_t word)
{
    (void)word;
}

__attribute__((weak)) void on_timer(void)
{
}

__attribute__((weak)) void on_bell(void)
{
}

__attribute__((weak)) void on_lost(uint32_t words)
{
    (void)words;
}

_Noreturn void halt_hart(void)
{
    halt();
}

/* The number of input words that each hart has read. */
static uint32_t read_words[HARTS];

/* The acknowledgement goes first: a word that comes after it interrupts again. A word that comes between the two reads of the number
   is read here, and its interrupt then finds nothing new. */
static void read_word(void)
{
    uint32_t *read = &read_words[hart_number()];
    uint32_t number, word;
    DEVICE->ack = WORD_BIT;
    do {
        number = DEVICE->inseq;
        word = DEVICE->inword;
    } while (number != DEVICE->inseq);
    uint32_t came = number - *read;
    *read = number;
    if (came > 1)
        on_lost(came - 1);
    if (came > 0)
        on_word(word);
}

/* Called by the trap entry. An exception is a fault of the guest: it is told by outputs, and the hart halts. */
void trap(uint32_t cause)
{
    switch (cause) {
    case EXTERNAL:
        read_word();
        break;
    case SOFTWARE:
        DEVICE->ack = BELL_BIT;
        on_bell();
        break;
    case TIMER:
        DEVICE->ack = TIMER_BIT;
        on_timer();
        break;
    default:
        output(FAULT);
        output(cause);
        output(csr_read(mepc));
        halt();
    }
}

/* A guest over a C library has these from there. */
#ifndef HAS_LIBRARY

void *memset(void *to, int byte, size_t length)
{
    unsigned char *at = to;
    while (length--)
        *at++ = (unsigned char)byte;
    return to;
}

void *memcpy(void *restrict to, const void *restrict from, size_t length)
{
    unsigned char *at = to;
    const unsigned char *source = from;
    while (length--)
        *at++ = *source++;
    return to;
}

void *memmove(void *to, const void *from, size_t length)
{
    unsigned char *at = to;
    const unsigned char *source = from;
    if (at <= source)
        return memcpy(to, from, length);
    while (length--)
        at[length] = source[length];
    return to;
}

int memcmp(const void *one, const void *other, size_t length)
{
    const unsigned char *a = one, *b = other;
    for (; length; length--, a++, b++)
        if (*a != *b)
            return *a - *b;
    return 0;
}

#endif
