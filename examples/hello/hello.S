# Prints a greeting, byte by byte, and exits with code 0.

    .text
    .globl _start
_start:
    la s0, greeting
    li a7, 1                # put: appends the low byte of a0 to the console
next:
    lbu a0, 0(s0)
    beqz a0, done
    ecall
    addi s0, s0, 1
    j next
done:
    li a0, 0
    li a7, 93               # exit, with the code in a0
    ecall

    .section .rodata
greeting:
    .string "Hello, world!\n"
