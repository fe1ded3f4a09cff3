/* The same calls on QEMU's machine `virt`, whose harts have bells and stay within the first eight: so that a guest of this folder runs there
   as it stands. An output goes to a word of its own; the machine ends once each hart has. */
#ifndef DEVICE_H
#define DEVICE_H

#include <stdint.h>

#define SOFTWARE ((volatile uint32_t *)0x02000000u)
#define FINISHER (*(volatile uint32_t *)0x00100000u)

enum { BELL_BIT = 1u << 3 };

#define csr_read(name)                                                          \
    ({                                                                          \
        uint32_t csr_value;                                                     \
        __asm__ volatile("csrr %0, " #name : "=r"(csr_value) : : "memory");     \
        csr_value;                                                              \
    })

#define AMO(name, instruction)                                                                              \
    static inline uint32_t name(volatile uint32_t *place, uint32_t word)                                    \
    {                                                                                                       \
        uint32_t before;                                                                                    \
        __asm__ volatile(instruction " %0, %2, %1" : "=r"(before), "+A"(*place) : "r"(word) : "memory");    \
        return before;                                                                                      \
    }

AMO(amo_add, "amoadd.w")
AMO(amo_swap, "amoswap.w")

extern volatile uint32_t ended, last_output[];

static inline void output(uint32_t word)
{
    last_output[csr_read(mhartid)] = word;
}

static inline void ring(unsigned hart)
{
    __asm__ volatile("fence" : : : "memory");
    SOFTWARE[hart] = 1;
}

/* Whoever looks at a word again and again does not sleep, as on the other machine. */
static inline void idle(void)
{
    __asm__ volatile("nop" : : : "memory");
}

static inline void wait_for_bell(void)
{
    while (!(csr_read(mip) & BELL_BIT))
        __asm__ volatile("wfi" : : : "memory");
    SOFTWARE[csr_read(mhartid)] = 0;
    __asm__ volatile("fence" : : : "memory");
}

#endif
