# The first instructions of a C program that the linker lays out by itself. Its layout has the small data round
# the symbol __global_pointer$, which gp holds from here on; then main is called on the stack that the hart starts
# with, and its value is the exit code. `.bss` needs no clearing: memory is 0 where the file has no bytes.

    .section .text.start, "ax"
    .globl _start
_start:
    .option push
    .option norelax
    la gp, __global_pointer$
    .option pop
    call main
    li a7, 93
    ecall
