# One lock, whose holder leaves its mark in the lock word, as locks do that can tell who has them. So the
# word changes inside, and is more than taken or free: such a lock is never elided to its end.
#include "locks.h"

    .text
    .globl main
main:
    la s0, lock
    la s1, count
    li s2, 1                # at the end: one word,
    slli s3, a1, 3          # with 8 for each hart
    addi s4, a0, 2          # the mark: neither 0, free, nor 1, just taken
    li t0, 1
    li s5, 8                # turns
turn:
    acquire s0
    sw s4, (s0)             # a store to the lock word, inside
    lw t1, (s1)
    addi t1, t1, 1
    sw t1, (s1)
    release_by_store s0
    addi s5, s5, -1
    bnez s5, turn
    tail finish

    words lock
    words count
