# A lock by load-reserved and store-conditional, given back by a fence and a store.
    .text
    .globl take
take:
    li t0, 1
1:  lr.w.aq t1, (a0)
    bnez t1, 1b
    sc.w t1, t0, (a0)
    bnez t1, 1b
    ret

    .globl give
give:
    fence rw, w
    sw zero, (a0)
    ret
