#!/usr/bin/env python3
"""Writes the image of a loop over one lock to a file: bench/lock_image.py KIND FILE

Each hart takes a lock of its own, adds to a word and gives the lock back, for ever. KIND is `swap`, where the lock is taken by
amoswap.w, or `pair`, where it is taken by lr.w and sc.w."""
import sys

import image

kind, file = sys.argv[1:]
START = [
    0xf8010293, #        addi x5, x2, -128    the lock, on the hart's own stack
    0x00100713, #        addi x14, x0, 1
]
ACQUIRE = {
    "swap": [
        0x08e2a82f, # turn:  amoswap.w x16, x14, (x5)
        0xfe081ee3, #        bne  x16, x0, turn
    ],
    "pair": [
        0x1002a82f, # turn:  lr.w x16, (x5)
        0xfe081ee3, #        bne  x16, x0, turn
        0x18e2a8af, #        sc.w x17, x14, (x5)
        0xfe089ae3, #        bne  x17, x0, turn
    ],
}
SECTION = [
    0x0402a383, #        lw   x7, 64(x5)
    0x00138393, #        addi x7, x7, 1
    0x0472a023, #        sw   x7, 64(x5)
    0x0002a023, #        sw   x0, 0(x5)
]
turn = ACQUIRE[kind] + SECTION


def jump(offset):
    """JAL of x0, backwards."""
    bits = offset & 0x1fffff
    return (bits >> 20 & 1) << 31 | (bits >> 1 & 0x3ff) << 21 | (bits >> 11 & 1) << 20 | (bits >> 12 & 0xff) << 12 | 0x6f


image.write(file, START + turn + [jump(-4 * len(turn))])
