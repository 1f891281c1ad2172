/* The lock of these programs, and how they end.
 *
 * The lock is the example of the RISC-V unprivileged manual, 'A Standard Extension for Atomic Instructions': a
 * load and a branch until it looks free, then a swap of 1, and a swap of 0 that gives it back. */

/* Takes the lock that the register points to; t0 is 1, and t1 is used. */
.macro acquire lock
1:  lw t1, (\lock)
    bnez t1, 1b
    amoswap.w.aq t1, t0, (\lock)
    bnez t1, 1b
.endm

.macro release lock
    amoswap.w.rl zero, zero, (\lock)
.endm

/* Gives it back by a store, as compilers do. */
.macro release_by_store lock
    fence rw, w
    sw zero, (\lock)
.endm

/* A word of 0 on a line of 64 bytes of its own, or as many as are named. */
.macro words name, count=1
    .bss
    .balign 64
\name:
    .zero 64 * \count
.endm
