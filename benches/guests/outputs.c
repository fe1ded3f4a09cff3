/* One hart puts out a word at each third step. */
#include "guest.h"

/* Where a word that is put out goes. For QEMU another place is given on the command line. */
#ifndef OUT
#define OUT 0xf0000008
#endif

void guest(unsigned hart)
{
    (void)hart;
    asm volatile("li t0, %0\n"
                 "1: addi t1, t1, 1\n"
                 "sw t1, 0(t0)\n"
                 "j 1b" : : "i"(OUT) : "t0", "t1", "memory");
}
