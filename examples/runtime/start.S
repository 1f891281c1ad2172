# The first instructions of every hart. elide gives each hart its number in a0, the number of
# harts in a1 and a stack of its own in sp; all other registers are 0.
    .section .text.start, "ax"
    .globl _start
_start:
    # gp is what linker relaxation makes `la` relative to, so it is set without relaxation.
    .option push
    .option norelax
    la gp, __global_pointer$
    .option pop
    call main
    # What main returns is the hart's exit code.
    tail exit_hart

# void exit_hart(int code)
    .text
    .globl exit_hart
exit_hart:
    li a7, 93
    ecall

# long write_some(int file, const void *bytes, unsigned long count)
#
# One write call: how many bytes it wrote, which stops at the end of a line of 64 bytes, or a
# negative error number.
    .globl write_some
write_some:
    li a7, 64
    ecall
    ret
