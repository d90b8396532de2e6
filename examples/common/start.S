# The first instructions of a C program: main is called on the stack that the hart starts with,
# and its value is the exit code.

    .section .text.start, "ax"
    .globl _start
_start:
    call main
    li a7, 93
    ecall
