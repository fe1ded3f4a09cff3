/* What a guest in C is written with. The same source is built for the machine (device.h) and natively, with a thread for each hart
   (native.h). HARTS, from 1 to 32, is given on the command line. */
#ifndef GUEST_H
#define GUEST_H

#include <stdint.h>

#ifdef __riscv
#include "device.h"
#else
#include "native.h"
#endif

/* What each hart runs; it halts where this returns. Each guest defines it. */
void guest(unsigned hart);

/* What interrupts call, with further interrupts held back. A guest defines those that it lets in. */
void on_word(uint32_t word);
void on_timer(void);
void on_bell(void);
/* So many input words came too fast to be read, before the one that on_word is called with next. */
void on_lost(uint32_t words);

/* What the kit outputs before it halts a hart at an exception: the word, mcause, mepc. */
enum { FAULT = 0xfa170000u };

/* A lock is a word that is 0 while nobody holds it. */
static inline void lock(volatile uint32_t *word)
{
    while (amo_swap(word, 1))
        idle();
}

static inline void unlock(volatile uint32_t *word)
{
    amo_swap(word, 0);
}

/* Waits until all harts have come here. The word is 0 at first and serves one meeting. */
static inline void meet(volatile uint32_t *word)
{
    amo_add(word, 1);
    while (__atomic_load_n(word, __ATOMIC_SEQ_CST) < HARTS)
        idle();
}

/* The next of a row of numbers that look random, and its place in the row. */
static inline uint32_t next_number(uint32_t *place)
{
    *place = *place * 1664525u + 1013904223u;
    return *place >> 8;
}

#endif
