"""The generated workload, written down apart from the program: its image, its machine, and what it comes to."""

import common
from encoding import ACQUIRE, EXIT, RELEASE, SWAP, atomic, b_type, constant, i_type, load_word, move, r_type, s_type

HARTS, TURNS, COUNTERS = 64, 468, 64
RETIRED = 7507
ENTRY, COUNTERS_AT, LOCKS_AT = 0x1000, 0x8000, 0x10000


def topology(clusters, harts):
    """A machine of so many clusters and harts that is the workload's in all else."""
    return f"clusters = {clusters}\nharts = {harts}\nbudget = 30000\nmemory = 65536\nlocks = 64\n".encode()


def totals(seed):
    """What the harts add to each counter."""
    counters = [0] * COUNTERS
    for hart in range(HARTS):
        number = (seed + 2654435761 * hart) % 2**32
        for _turn in range(TURNS):
            number = (1664525 * number + 1013904223) % 2**32
            counters[number >> 26] += number >> 16 & 255
    return counters


def summary(seed):
    lines = [f"seed {seed} harts {HARTS} retired {HARTS * RETIRED}"]
    lines += [f"counter {number} {total}" for number, total in enumerate(totals(seed))]
    return "".join(f"{line}\n" for line in lines).encode()


def image(seed):
    """The program as an ELF file."""
    zero, t0, t1, t2, s1, a0, a7, t3, t4, t5, t6 = 0, 5, 6, 7, 9, 10, 17, 28, 29, 30, 31
    s2, s3, s4, s5, s6, s7 = range(18, 24)

    def multiply(rd, rs1, rs2):
        return r_type(1, rs2, rs1, 0, rd, 0b0110011)

    def add(rd, rs1, rs2):
        return r_type(0, rs2, rs1, 0, rd, 0b0110011)

    def shift(rd, rs1, bits, right):
        return i_type(bits, rs1, 5 if right else 1, rd, 0b0010011)

    turn = [
        multiply(s1, s1, s2), add(s1, s1, s3),
        shift(t1, s1, 26, True), shift(t2, t1, 4, False), add(t2, t2, s4), shift(t3, t1, 2, False), add(t3, t3, s5),
        shift(t4, s1, 16, True), i_type(255, t4, 7, t4, 0b0010011),
        atomic(SWAP, s7, t3, t5, ACQUIRE), load_word(t6, 0, t2), add(t6, t6, t4), s_type(0, t6, t2, 2),
        atomic(SWAP, zero, t3, zero, RELEASE), move(s6, -1, s6), b_type(-60, zero, s6, 1),
    ]
    words = [
        *constant(s1, seed), *constant(t0, 2654435761), multiply(t0, t0, a0), add(s1, s1, t0),
        *constant(s2, 1664525), *constant(s3, 1013904223), *constant(s4, COUNTERS_AT), *constant(s5, LOCKS_AT),
        move(s6, TURNS), move(s7, 1), *turn, move(a0, 0), *EXIT,
    ]
    return common.image(common.code_of(words), e_entry=ENTRY, p_vaddr=ENTRY, p_paddr=ENTRY)
