# Refused: out/refused/reserved.elf: the word 1005252f at 80000004 is no instruction of the machine
    .globl _start
_start:
    .option norvc
    nop
    lr.w    a0, (a0)
