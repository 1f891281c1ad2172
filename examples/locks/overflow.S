# One lock, and under it each hart 8 times adds 1 to each of 17 words, on as many lines: one more than a
# section may write where nothing else is said.
#include "locks.h"

    .text
    .globl main
main:
    la s0, lock
    la s1, counts
    li s2, 17               # at the end: 17 words,
    slli s3, a1, 3          # with 8 for each hart
    li t0, 1
    li s5, 8                # turns
turn:
    acquire s0
    mv t2, s1
    mv t3, s2
next:
    lw t1, (t2)
    addi t1, t1, 1
    sw t1, (t2)
    addi t2, t2, 64
    addi t3, t3, -1
    bnez t3, next
    release_by_store s0
    addi s5, s5, -1
    bnez s5, turn
    tail finish

    words lock
    words counts, 17
