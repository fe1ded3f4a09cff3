# Where each hart begins on QEMU's `virt`: a stack of its own, and an end once all have ended.

    .section .text.start, "ax"
    .globl _start
_start:
    .option push
    .option norelax
    la      gp, __global_pointer$
    .option pop
    csrr    a0, mhartid
    la      sp, stacks
    li      t0, STACK
    addi    t1, a0, 1
    mul     t0, t0, t1
    add     sp, sp, t0
    # A bell wakes who waits by WFI, though none is let in.
    csrwi   mie, 8
    call    guest
    la      t0, ended
    li      t1, 1
    amoadd.w t1, t1, (t0)
    li      t2, HARTS - 1
    bne     t1, t2, 1f
    li      t0, 0x00100000
    li      t1, 0x5555
    sw      t1, 0(t0)
1:  wfi
    j       1b

    .bss
    .balign 4
    .globl ended, last_output
ended:
    .space 4
last_output:
    .space 4 * HARTS
