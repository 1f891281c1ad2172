#!/usr/bin/env python3
"""Writes the image of a loop inside of sections to a file: bench/section_image.py FILE

One hart takes and gives back a lock 500 times, and runs a loop of 8,000 instructions in between. With --long 65536 each turn
is one section in a mode that elides, and none in the plain mode."""
import sys

import image

(file,) = sys.argv[1:]
CODE = [
    0xfc010293, #        addi x5, x2, -64     the lock
    0xf8010693, #        addi x13, x2, -128   a line beside it
    0x00100713, #        addi x14, x0, 1
    0x1f400793, #        addi x15, x0, 500
    0x08e2a82f, # turn:  amoswap.w x16, x14, (x5)
    0x3e800313, #        addi x6, x0, 1000
    0x0006a383, # loop:  lw   x7, 0(x13)
    0x00338393, #        addi x7, x7, 3
    0x0076a023, #        sw   x7, 0(x13)
    0x00744433, #        xor  x8, x8, x7
    0x00345493, #        srli x9, x8, 3
    0x00960633, #        add  x12, x12, x9
    0xfff30313, #        addi x6, x6, -1
    0xfe0312e3, #        bne  x6, x0, loop
    0x0002a023, #        sw   x0, 0(x5)
    0xfff78793, #        addi x15, x15, -1
    0xfc0798e3, #        bne  x15, x0, turn
    0x00000513, #        addi x10, x0, 0
    0x05d00893, #        addi x17, x0, 93
    0x00000073, #        ecall                exits with 0
]
image.write(file, CODE)
