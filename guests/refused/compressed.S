# Refused: out/refused/compressed.elf: the word 00010505 at 80000004 is no instruction of the machine
    .globl _start
_start:
    .option norvc
    nop
    .option rvc
    c.addi  a0, 1
    c.nop
