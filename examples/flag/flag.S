# Hart 0 stores 7 and then sets a flag, with a release. Hart 1 reads the flag, with acquires, until it is set, and
# then loads the 7, with which it exits. The word and the flag stand in two lines of memory.
# docs/reading_a_log.md goes through a run of it event by event.

        .section .text.start, "ax"
        .globl _start
_start:
        lui     t0, 0x8                 # 0x8000: the word; 0x8010: the flag
        addi    t2, t0, 16
        bne     a0, zero, reader
        addi    t1, zero, 7
        sw      t1, 0(t0)
        amoswap.w.rl zero, t1, (t2)
        addi    a0, zero, 0
        j       end
reader:
        lr.w.aq t1, (t2)
        beq     t1, zero, reader
        lw      a0, 0(t0)
end:
        addi    a7, zero, 93            # exit with what a0 has
        ecall
