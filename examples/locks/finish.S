# The end of every program here: hart 0 waits for all harts, looks at the words that they wrote, and says
# so if each is right. Its exit code is 1 if one is not, and so the run's status.
#
# main comes here with its a0 (the hart) and a1 (how many harts there are), and
#   s1 the first of the words, which stand 64 bytes apart
#   s2 how many there are, at least 1
#   s3 what each must hold
#include "locks.h"

    .text
    .globl finish
finish:
    la t1, finished
    li t0, 1
    amoadd.w.aqrl zero, t0, (t1)
    bnez a0, good
wait:
    lw t0, (t1)
    bne t0, a1, wait
each:
    lw t0, (s1)
    bne t0, s3, wrong
    addi s1, s1, 64
    addi s2, s2, -1
    bnez s2, each
    li a0, 1
    la a1, text
    li a2, 3
    li a7, 64
    ecall
good:
    li a0, 0
    ret
wrong:
    li a0, 1
    ret

    .section .rodata
    .balign 64
text:
    .ascii "ok\n"

    words finished
