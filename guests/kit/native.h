/* The machine as a guest sees it, on the machine that it is built on: a thread for each hart, which native.c starts. Interrupts come
   in idle() alone, and inputs one at a time, in the order of their hart's lines in the script, whatever their counts. */
#ifndef NATIVE_H
#define NATIVE_H

#include <stdint.h>

enum { BELL_BIT = 1u << 3, TIMER_BIT = 1u << 7, WORD_BIT = 1u << 11 };

#define AMO(name, builtin)                                                  \
    static inline uint32_t name(volatile uint32_t *place, uint32_t word)    \
    {                                                                       \
        return builtin(place, word, __ATOMIC_SEQ_CST);                      \
    }

AMO(amo_add, __atomic_fetch_add)
AMO(amo_swap, __atomic_exchange_n)
AMO(amo_xor, __atomic_fetch_xor)
AMO(amo_or, __atomic_fetch_or)
AMO(amo_and, __atomic_fetch_and)

unsigned hart_number(void);
void output(uint32_t word);
void ring(unsigned hart);
_Noreturn void halt(void);
void let_in(uint32_t bits);
void idle(void);
void wait_for_bell(void);

#endif
