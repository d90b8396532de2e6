"""The images that the benchmarks run: loops of one hart, and work for many harts whose answers are known."""

import os
import subprocess
import sys

BENCH = os.path.dirname(os.path.realpath(__file__))
ROOT = os.path.dirname(BENCH)
OUT = os.path.join(BENCH, "out")
sys.path.insert(0, os.path.join(ROOT, "tests"))

import common  # noqa: E402
from encoding import (  # noqa: E402
    ACQUIRE, EXIT, LR, NOP, RELEASE, SWAP, atomic, b_type, constant, i_type, load_word, move, r_type, s_type,
)

DASH = os.path.join(ROOT, "crates", "dash", "out", "dash")
TURNS = os.path.join(ROOT, "crates", "unit_turns", "out", "unit_turns")
DATA_AT, MESSAGES_AT, LOCKS_AT = 0x20000, 0x30000, 0x100000
EQUAL, UNEQUAL, BELOW = 0, 1, 6
# Registers: the hart's number and how many there are; the turns that are left; a word that is read; addresses.
HART, HARTS, LEFT, VALUE, AT, ONE = 10, 11, 5, 7, 6, 9

# Each turn counts x5 down; x6 is the address of the data.
SPIN = [move(VALUE, 1, VALUE), move(LEFT, -1, LEFT), b_type(-8, 0, LEFT, UNEQUAL)]
ACCESSES = [
    load_word(VALUE, 0, AT), move(VALUE, 1, VALUE), s_type(0, VALUE, AT, 2),
    i_type(5, AT, 4, 28, 0b0000011), s_type(7, 28, AT, 0),  # lbu and sb
    i_type(10, AT, 1, 29, 0b0000011), s_type(14, 29, AT, 1),  # lh and sh
    move(LEFT, -1, LEFT), b_type(-32, 0, LEFT, UNEQUAL),
]


def shift_left(rd, rs1, bits):
    return i_type(bits, rs1, 1, rd, 0b0010011)


def add(rd, rs1, rs2):
    return r_type(0, rs2, rs1, 0, rd, 0b0110011)


def subtract(rd, rs1, rs2):
    return r_type(0b0100000, rs2, rs1, 0, rd, 0b0110011)


def one_hart(loop, count):
    """An image of which a hart retires so many instructions, almost all of them turns of the loop."""
    begin = constant(AT, DATA_AT)
    turns = max(0, count - len(begin) - 2 - len(EXIT)) // len(loop)
    words = begin + (constant(LEFT, turns) + loop if turns else [])
    rest = count - len(begin) - (2 + turns * len(loop) if turns else 0) - len(EXIT)
    return common.image(common.code_of(words + [NOP] * rest + EXIT))


def endless(loop):
    """An image of which each hart goes round a loop for ever."""
    words = constant(AT, DATA_AT) + loop[:-2]
    return common.image(common.code_of(words + [b_type(-4 * (len(loop) - 2), 0, 0, EQUAL)]))


def by_themselves(harts, turns):
    """Each hart counts to `turns` in a line of its own, and exits with that."""
    words = constant(AT, DATA_AT) + [shift_left(VALUE, HART, 6), add(AT, AT, VALUE)] + constant(LEFT, turns)
    return common.image(common.code_of(words + ACCESSES + [move(HART, 0, VALUE)] + EXIT)), [turns] * harts


def under_a_lock(harts, turns):
    """Each hart adds 1 to one counter `turns` times, under a lock word. At the end it exits with what the counter has."""
    words = constant(AT, DATA_AT) + constant(8, LOCKS_AT) + [move(ONE, 1)] + constant(LEFT, turns)
    ask, unlock = atomic(SWAP, ONE, 8, 0, ACQUIRE), atomic(SWAP, 0, 8, 0, RELEASE)
    loop = [ask, load_word(VALUE, 0, AT), move(VALUE, 1, VALUE), s_type(0, VALUE, AT, 2), unlock, move(LEFT, -1, LEFT)]
    words += loop + [b_type(-4 * len(loop), 0, LEFT, UNEQUAL), ask, load_word(HART, 0, AT), unlock]
    return common.image(common.code_of(words + EXIT)), None


def messages(harts, turns):
    """Each hart of the first half and one of the other send each other words behind flags, and sum up what they get."""
    half, pair, peer, waits, sum_of, number = 12, 13, 14, 15, 16, 18
    # A pair has four lines: the word and the flag of one hart, and of the other. x6 is of the hart, x14 of its peer.
    words = [i_type(1, HARTS, 5, half, 0b0010011), move(pair, 0, HART), move(waits, 0)]
    words += [b_type(12, half, HART, BELOW), subtract(pair, HART, half), move(waits, 1)]
    words += constant(AT, MESSAGES_AT) + [shift_left(pair, pair, 6), add(AT, AT, pair), move(peer, 32, AT)]
    words += [b_type(16, 0, waits, EQUAL), move(VALUE, 0, AT), move(AT, 0, peer), move(peer, 0, VALUE)]
    words += constant(LEFT, turns) + [move(sum_of, 0), move(number, 0)]
    send = [s_type(0, number, AT, 2), move(28, 16, AT), atomic(SWAP, number, 28, 0, RELEASE)]
    receive = [move(28, 16, peer), atomic(LR, 0, 28, VALUE, ACQUIRE), b_type(-4, number, VALUE, UNEQUAL), load_word(VALUE, 0, peer), add(sum_of, sum_of, VALUE)]
    first = [move(number, 1, number), b_type(4 * len(send) + 4, 0, waits, UNEQUAL), *send, *receive]
    second = [b_type(4 * len(send) + 4, 0, waits, EQUAL), *send, move(LEFT, -1, LEFT)]
    loop = first + second
    words += loop + [b_type(-4 * len(loop), 0, LEFT, UNEQUAL), move(HART, 0, sum_of)]
    return common.image(common.code_of(words + EXIT)), [turns * (turns + 1) // 2] * harts


def written(name, data):
    """The path of a file of this name and with these bytes."""
    os.makedirs(OUT, exist_ok=True)
    path = os.path.join(OUT, name.replace(" ", "_") + ".elf")
    with open(path, "wb") as file:
        file.write(data)
    return path


def compile_rust(name):
    """The path of the program that rustc makes of a source of this folder."""
    made = os.path.join(OUT, name)
    subprocess.run(["rustc", "--edition", "2021", "-O", "-o", made, os.path.join(BENCH, f"{name}.rs")], check=True)
    return made


def build_turns():
    """Has the program of crate unit_turns proved and built."""
    # `rt run` runs it as well: these words are none that it serves.
    folder = os.path.join(ROOT, "crates", "unit_turns")
    subprocess.run(["rt", "run", "--", "none"], cwd=folder, check=False, stdout=subprocess.DEVNULL, stderr=subprocess.DEVNULL)
    if not os.path.exists(TURNS):
        sys.exit("the program of crate unit_turns could not be built: rt run says why, in its folder")
