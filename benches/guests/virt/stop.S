# Where QEMU's machine `virt` begins, in place of the kit's start, and where it ends: at a timer, once the guest has taken as many instructions as
# are asked for. The word at 0x80200000 says how many, in hundreds: with `-icount shift=0` an instruction takes a nanosecond of the machine, whose
# clock ticks each hundred. It is linked to the symbols of a guest, and stands behind the guest's pages.

    .text
    .globl begin
begin:
    .option push
    .option norelax
    la      gp, __global_pointer$
    .option pop
    la      sp, stacks + STACK
    la      t0, stop
    csrw    mtvec, t0
    # The machine's clock does not begin at 0, nor does its count of instructions, which is the same clock.
    li      t0, 0x80200000
    lw      t0, 0(t0)
    li      t1, 0x0200bff8
    lw      t1, 0(t1)
    add     t0, t0, t1
    li      t1, 0x02004000
    sw      t0, 0(t1)
    sw      zero, 4(t1)
    li      t0, 0x80
    csrw    mie, t0
    li      a0, 0
    csrr    t0, minstret
    csrw    mscratch, t0
    csrsi   mstatus, 8
    call    guest
    # A guest that ended before tells no number.
    j       finish

# Tells on the serial line how many instructions were taken, in eight hexadecimal digits.
    .balign 4
stop:
    csrr    t0, minstret
    csrr    t1, mscratch
    sub     t0, t0, t1
    li      t1, 0x10000000
    li      t2, 32
1:  addi    t2, t2, -4
    srl     t3, t0, t2
    andi    t3, t3, 15
    addi    t3, t3, '0'
    li      t4, '9'
    bleu    t3, t4, 2f
    addi    t3, t3, 'a' - '0' - 10
2:  sb      t3, 0(t1)
    bnez    t2, 1b
    li      t3, '\n'
    sb      t3, 0(t1)
finish:
    li      t0, 0x00100000
    li      t1, 0x5555
    sw      t1, 0(t0)
3:  j       3b
