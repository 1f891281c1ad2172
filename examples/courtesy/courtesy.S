# Two harts that each need two locks, and are too polite: each takes the lock that lies next to it, and where the
# other hart has the other one, gives its own back and begins again. Hart 0 says `both` once it has had both, and so
# does hart 1. Where the two go in step, each finds the other's lock taken for ever.
    .text
    .globl main
main:
    la s0, locks            # hart 0 begins with the first lock, hart 1 with the second
    slli t0, a0, 6
    addi s1, s0, 64
    sub s1, s1, t0
    add s0, s0, t0
    li t0, 1
try:
    amoswap.w.aq t1, t0, (s0)
    bnez t1, try            # the other hart has it for a moment
    amoswap.w.aq t1, t0, (s1)
    beqz t1, both
    amoswap.w.rl zero, zero, (s0)
    j try
both:
    li a0, 1
    la a1, text
    li a2, 5
    li a7, 64
    ecall
    amoswap.w.rl zero, zero, (s1)
    amoswap.w.rl zero, zero, (s0)
    li a0, 0
    tail exit_hart

    .section .rodata
    .balign 64
text:
    .ascii "both\n"

    .data
    .balign 64
locks:
    .word 0
    .zero 60
    .word 0
    .zero 60
