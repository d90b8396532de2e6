# Prints a line and then traps on purpose: the word that it loads lies at an address
# that is no multiple of 4. The instructions after the load are never reached.

    .text
    .globl _start
_start:
    la s0, line
    li a7, 1
next:
    lbu a0, 0(s0)
    beqz a0, done
    ecall
    addi s0, s0, 1
    j next
done:
    li s1, 0x20002
    lw a0, 0(s1)
    li a7, 93
    ecall

    .section .rodata
line:
    .string "about to load a word from 00020002\n"
