#!/usr/bin/env python3
"""Writes the image of a loop of 3,999,998 steps to a file: bench/loop_image.py own|one FILE

Each hart loads from and stores to a line of its own, or all of them do to one line."""
import sys

import image

place, file = sys.argv[1:]
FIRST = {
    "own": 0xfc010293, # addi x5, x2, -64
    "one": 0x000112b7, # lui  x5, 0x11       in the lowest stack
}
CODE = [
    FIRST[place],
    0x0007a337, #        lui  x6, 0x7a
    0x11f30313, #        addi x6, x6, 0x11f   499,999 times:
    0x0002a383, # loop:  lw   x7, 0(x5)
    0x00338393, #        addi x7, x7, 3
    0x0072a023, #        sw   x7, 0(x5)
    0x00744433, #        xor  x8, x8, x7
    0x00345493, #        srli x9, x8, 3
    0x00960633, #        add  x12, x12, x9
    0xfff30313, #        addi x6, x6, -1
    0xfe0312e3, #        bne  x6, x0, loop
    0x00000513, #        addi x10, x0, 0
    0x05d00893, #        addi x17, x0, 93
    0x00000073, #        ecall                exits with 0
]
image.write(file, CODE)
