# Refused: out/refused/written.elf: the word f1451073 at 80000004 is no instruction of the machine
    .globl _start
_start:
    .option norvc
    csrr    a0, mhartid
    csrw    mhartid, a0
