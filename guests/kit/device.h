/* The machine as a guest sees it: the device page, the control and status registers, and atomic memory operations. */
#ifndef DEVICE_H
#define DEVICE_H

#include <stdint.h>

/* The device page. Each hart sees its own. Words only. */
struct device {
    const volatile uint32_t inword; /* the last input word */
    const volatile uint32_t inseq;  /* the number of input words, modulo 2^32 */
    volatile uint32_t out;          /* appends a word to the hart's outputs */
    volatile uint32_t ack;          /* clears these bits of mip */
    volatile uint32_t bell;         /* rings the hart of this number */
    volatile uint32_t halt;         /* any word halts the hart */
};

#define DEVICE ((struct device *)0xf0000000u)

/* Bits of mie and mip. */
enum { BELL_BIT = 1u << 3, TIMER_BIT = 1u << 7, WORD_BIT = 1u << 11 };

/* The bit of mstatus that lets interrupts in. */
enum { MIE_BIT = 1u << 3 };

#define csr_read(name)                                                          \
    ({                                                                          \
        uint32_t csr_value;                                                     \
        __asm__ volatile("csrr %0, " #name : "=r"(csr_value) : : "memory");     \
        csr_value;                                                              \
    })
#define csr_write(name, value) __asm__ volatile("csrw " #name ", %0" : : "r"((uint32_t)(value)) : "memory")
#define csr_set(name, bits) __asm__ volatile("csrs " #name ", %0" : : "r"((uint32_t)(bits)) : "memory")
#define csr_clear(name, bits) __asm__ volatile("csrc " #name ", %0" : : "r"((uint32_t)(bits)) : "memory")

/* Atomic memory operations: each answers the word that stood there before. */
#define AMO(name, instruction)                                                                              \
    static inline uint32_t name(volatile uint32_t *place, uint32_t word)                                    \
    {                                                                                                       \
        uint32_t before;                                                                                    \
        __asm__ volatile(instruction " %0, %2, %1" : "=r"(before), "+A"(*place) : "r"(word) : "memory");    \
        return before;                                                                                      \
    }

AMO(amo_add, "amoadd.w")
AMO(amo_swap, "amoswap.w")
AMO(amo_xor, "amoxor.w")
AMO(amo_or, "amoor.w")
AMO(amo_and, "amoand.w")
AMO(amo_min, "amomin.w")
AMO(amo_max, "amomax.w")
AMO(amo_minu, "amominu.w")
AMO(amo_maxu, "amomaxu.w")

/* The calling hart's number. */
static inline unsigned hart_number(void)
{
    return csr_read(mhartid);
}

/* Appends a word to the hart's outputs. */
static inline void output(uint32_t word)
{
    DEVICE->out = word;
}

/* Rings a hart, which must be one of the guest's. What was stored before is stored by then. */
static inline void ring(unsigned hart)
{
    __asm__ volatile("" : : : "memory");
    DEVICE->bell = hart;
}

/* Halts the calling hart. */
static inline _Noreturn void halt(void)
{
    for (;;)
        DEVICE->halt = 0;
}

/* Lets these interrupts in, a sum of BELL_BIT, TIMER_BIT and WORD_BIT. */
static inline void let_in(uint32_t bits)
{
    csr_set(mie, bits);
    csr_set(mstatus, MIE_BIT);
}

/* A step of waiting, in which an interrupt that was let in may come. */
static inline void idle(void)
{
    __asm__ volatile("wfi" : : : "memory");
}

/* Waits for a bell, without an interrupt. Bells that come before it looks count as one. */
static inline void wait_for_bell(void)
{
    while (!(csr_read(mip) & BELL_BIT))
        idle();
    DEVICE->ack = BELL_BIT;
    __asm__ volatile("" : : : "memory");
}

#endif
