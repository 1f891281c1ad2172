# Says hello from hart 0. A program in assembly needs of the runtime only its start file.
    .text
    .globl main
main:
    bnez a0, done           # one hart is enough
    la s0, text
    la s1, text_end
    sub s1, s1, s0          # how many bytes are left
again:
    li a0, 1
    mv a1, s0
    mv a2, s1
    call write_some
    bltz a0, failed
    add s0, s0, a0          # a write is short at the end of each line of 64 bytes
    sub s1, s1, a0
    bnez s1, again
done:
    li a0, 0
    tail exit_hart
failed:
    li a0, 1
    tail exit_hart

    .section .rodata
text:
    .ascii "Hello from RV32IA, in more bytes than one line of memory has, so it takes two writes.\n"
text_end:
