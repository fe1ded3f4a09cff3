# Refused: out/refused/counter.elf: the word b0002573 at 80000000 is no instruction of the machine
    .globl _start
_start:
    csrr    a0, mcycle
