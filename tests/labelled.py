"""Random programs for many harts without data races, with what each hart ends with in every order of the harts.

    python3 tests/labelled.py SEED HARTS FILE

writes the image of a seed into a file, and prints what is expected on so many harts.

A program is a row of blocks that all harts run: counters under lock words and under locks in memory, atomic operations
and LR/SC loops on shared words, messages behind flags, puts, and work on words of each hart's own, some of which share a
line with others' and many of which have one index in a cache. A hart folds what it reads into x18, where that is the
same in every order. Beside its words each block has what it does to a `World`, in Python; nothing here knows how the
program or the interpreter of reference.py works.
"""

import random
import sys

from common import code_of, image
from encoding import (
    ACQUIRE, ADD, CALL_REGISTER, ECALL, FENCE, FENCE_TSO, LOCKS_AT, LR, MAX, MAXU, MIN, MINU, OR, RELEASE, SC, SWAP, XOR,
    atomic, b_type, constant, i_type, j_type, load_word, move, r_type, s_type, u_type,
)

MASK = 0xFFFFFFFF
MEMORY = 0x100000
# Lines at a distance of a page have one index in the caches.
PAGE = 4096
SCRATCH_AT, PAGES = 0x20000, 8
COUNTERS_AT, SPIN_AT, ATOMS_AT, DONE_AT = 0x30000, 0x36000, 0x38000, 0x3A000
FLAGS_AT, MESSAGES_AT = 0x40000, 0x60000
CONSOLE_LOCK = 63
BOTH = ACQUIRE | RELEASE
FENCES = (FENCE, FENCE_TSO, 0x0110000F, 0x0220000F, 0x0310000F, 0x0000000F)
# What an atomic operation makes of a word and an operand, in any order of the harts the same at the end.
FOLDS = {
    ADD: lambda a, b: a + b & MASK,
    XOR: lambda a, b: a ^ b,
    OR: lambda a, b: a | b,
    MAX: lambda a, b: max(a, b, key=signed),
    MIN: lambda a, b: min(a, b, key=signed),
    MAXU: max,
    MINU: min,
}
# Registers: the hart's number, how many harts there are, what was folded, the hart's scratch words, a loop's turns.
HART, HARTS, FOLDED, SCRATCH, TURNS = 8, 9, 18, 20, 21
# What blocks use in between; 0 at the end.
VALUE, FAILED, AMOUNT, AT, LOCK, OPERAND, OLD = 5, 6, 7, 28, 29, 30, 31


def signed(value):
    return value - (1 << 32) if value >> 31 else value


def fold(register):
    """x18 becomes 33 times itself and the register."""
    shift = i_type(5, FOLDED, 1, AMOUNT, 0b0010011)
    return [shift, add(FOLDED, FOLDED, AMOUNT), add(FOLDED, FOLDED, register)]


def folded(old, value):
    return 33 * old + value & MASK


def add(rd, rs1, rs2):
    return r_type(0, rs2, rs1, 0, rd, 0b0110011)


def load_unsigned(size, rd, offset, rs1):
    return i_type(offset, rs1, {1: 4, 2: 5, 4: 2}[size], rd, 0b0000011)


def store(size, rs2, offset, rs1):
    return s_type(offset, rs2, rs1, {1: 0, 2: 1, 4: 2}[size])


class World:
    """What every order of the harts leads to."""

    def __init__(self, harts):
        self.harts = range(harts)
        self.folded = [0] * harts
        self.scratch = [{} for _ in self.harts]
        self.puts = [bytearray() for _ in self.harts]
        self.shared = {}

    def load(self, hart, at, size):
        return int.from_bytes(bytes(self.scratch[hart].get(at + offset, 0) for offset in range(size)), "little")

    def store(self, hart, at, size, value):
        for offset, byte in enumerate((value & (1 << 8 * size) - 1).to_bytes(size, "little")):
            self.scratch[hart][at + offset] = byte

    def fold(self, hart, value):
        self.folded[hart] = folded(self.folded[hart], value)


class Program:
    """The words of a seed's program, and what they do to a world."""

    def __init__(self, seed):
        self.random = random.Random(seed)
        self.messages = 0
        # Of its own words a hart mostly uses those that it used last.
        self.page = 0
        # Scratch words of a hart are in a line of their own, or next to those of other harts.
        self.stride = self.random.choice((4, 16))
        # Counters under lock words: words, bytes of one word and halves of another, in few cache indexes.
        words = [(COUNTERS_AT + 4 * (i % 4) + PAGE * (i // 4), 4) for i in range(8)]
        parts = [(COUNTERS_AT + 2 * PAGE + i, 1) for i in range(4)] + [(COUNTERS_AT + 2 * PAGE + 16 + 2 * i, 2) for i in range(2)]
        self.counters = words + parts
        self.spins = [(SPIN_AT + 16 * i, SPIN_AT + 16 * i + self.random.choice((4, 8, PAGE))) for i in range(3)]
        self.atoms = {operation: ATOMS_AT + 4 * i for i, operation in enumerate(FOLDS)}
        self.used = set()
        blocks = [self.block() for _ in range(self.random.randrange(5, 12))]
        self.words = self.start() + [word for words, _ in blocks for word in words] + self.finish()
        self.acts = [act for _, act in blocks]

    def image(self):
        return image(code_of(self.words))

    def expected(self, harts):
        """The world at the end, and the registers of each hart."""
        world = World(harts)
        for act in self.acts:
            act(world)
        for at, _ in sorted(self.used):
            world.fold(0, world.shared.get(at, 0))
        return world, [self.registers(world, hart, harts) for hart in world.harts]

    def registers(self, world, hart, harts):
        registers = [0] * 32
        registers[2] = MEMORY - hart * (MEMORY // (4 * harts) // 16 * 16)
        registers[10], registers[FOLDED] = world.folded[hart], world.folded[hart]
        registers[11], registers[HARTS] = harts, harts
        registers[HART] = hart
        registers[CALL_REGISTER] = 93
        registers[SCRATCH] = SCRATCH_AT + self.stride * hart
        return registers

    def start(self):
        shift = {4: 2, 16: 4}[self.stride]
        own = [i_type(shift, 10, 1, VALUE, 0b0010011)] + constant(SCRATCH, SCRATCH_AT) + [add(SCRATCH, SCRATCH, VALUE)]
        return [move(HART, 0, 10), move(HARTS, 0, 11)] + own

    def finish(self):
        """Hart 0 waits for all others and folds what they share; each exits with what it folded."""
        words = constant(AT, DONE_AT) + [move(VALUE, 1), atomic(ADD, VALUE, AT, 0, BOTH)]
        reads = [atomic(LR, 0, AT, VALUE, ACQUIRE), b_type(-4, HARTS, VALUE, 1)]
        for at, size in sorted(self.used):
            reads += constant(AT, at) + [load_unsigned(size, VALUE, 0, AT)] + fold(VALUE)
        words += [b_type(8, 0, HART, 0), j_type(4 * (len(reads) + 1), 0)] + reads
        words += [move(register, 0) for register in (VALUE, FAILED, AMOUNT, AT, LOCK, OPERAND, OLD)]
        return words + [move(10, 0, FOLDED), move(CALL_REGISTER, 93), ECALL]

    def block(self):
        kinds = (self.scratch, self.scratch, self.critical, self.critical, self.spin, self.loop, self.atomic, self.message, self.put)
        kind = self.random.choice(kinds)
        words, act = kind()
        if kind == self.message or self.random.random() < 0.4:
            return words, act
        turns = self.random.randrange(2, 5)

        def again(world):
            for _ in range(turns):
                act(world)

        back = b_type(-4 * (len(words) + 1), 0, TURNS, 1)
        return [move(TURNS, turns)] + words + [move(TURNS, -1, TURNS), back], again

    def amount(self):
        """A number of each hart's own in x7: its words, and its value by the hart."""
        base, times = self.random.choice((1, 7, 300, 0x12345678, 0xFFFFFFFD)), self.random.randrange(3)
        return constant(AMOUNT, base) + [add(AMOUNT, AMOUNT, HART)] * times, lambda hart: base + times * hart & MASK

    def hint(self, register):
        """Mostly nothing; else a prefetch of the line at an address, or a fence."""
        kind = self.random.randrange(6)
        if kind == 0:
            return [i_type(self.random.choice((0, 32, -32)) | self.random.choice((1, 3)), register, 0b110, 0, 0b0010011)]
        return [self.random.choice(FENCES)] if kind == 1 else []

    def scratch(self):
        """Loads, stores and atomic operations on the hart's own words."""
        words, acts = [], []
        for _ in range(self.random.randrange(3, 12)):
            more, act = self.random.choice((self.own_store, self.own_store, self.own_load, self.own_load, self.own_atomic, self.own_loop))()
            words += more + self.hint(AT)
            acts.append(act)

        def run(world):
            for act in acts:
                for hart in world.harts:
                    act(world, hart)

        return words, run

    def own_place(self, size):
        """An offset into the hart's words of a page, the page, and the words that set x28 to that page."""
        if self.random.random() < 0.4:
            self.page = self.random.randrange(PAGES)
        page, offset = self.page, self.random.randrange(0, self.stride, size)
        return offset, PAGE * page + offset, [u_type(page, AT, 0b0110111), add(AT, AT, SCRATCH)]

    def own_store(self):
        size = self.random.choice((1, 2, 4, 4))
        offset, at, words = self.own_place(size)
        more = self.random.randrange(-100, 100)

        def act(world, hart):
            world.folded[hart] = world.folded[hart] + more & MASK
            world.store(hart, at, size, world.folded[hart])

        return words + [move(FOLDED, more, FOLDED), store(size, FOLDED, offset, AT)], act

    def own_load(self):
        size = self.random.choice((1, 2, 4, 4))
        offset, at, words = self.own_place(size)
        return words + [load_unsigned(size, VALUE, offset, AT)] + fold(VALUE), lambda world, hart: world.fold(hart, world.load(hart, at, size))

    def own_atomic(self):
        offset, at, words = self.own_place(4)
        operation = self.random.choice(sorted(FOLDS))

        def act(world, hart):
            old = world.load(hart, at, 4)
            world.store(hart, at, 4, FOLDS[operation](old, world.folded[hart]))
            world.fold(hart, old)

        words = words + [move(AT, offset, AT), atomic(operation, FOLDED, AT, VALUE, self.random.randrange(4))]
        return words + fold(VALUE), act

    def own_loop(self):
        offset, at, words = self.own_place(4)

        def act(world, hart):
            new = world.load(hart, at, 4) + world.folded[hart] & MASK
            world.store(hart, at, 4, new)
            world.fold(hart, new)

        words = words + [move(AT, offset, AT)] + self.reserve_and_add(FOLDED, self.random.randrange(4), self.random.randrange(4))
        return words + fold(VALUE), act

    def reserve_and_add(self, operand, read_labels, write_labels):
        """An LR/SC loop that adds to the word at x28, which x5 has then."""
        tries = [atomic(LR, 0, AT, VALUE, read_labels), add(VALUE, VALUE, operand)]
        return tries + [atomic(SC, VALUE, AT, FAILED, write_labels), b_type(-12, 0, FAILED, 1)]

    def adding(self, at, size, amount):
        """Adds the amounts of all harts to a shared word."""
        self.used.add((at, size))

        def act(world):
            for hart in world.harts:
                world.shared[at] = world.shared.get(at, 0) + amount(hart) & (1 << 8 * size) - 1

        return act

    def critical(self):
        """A counter under a lock word of its own."""
        number = self.random.randrange(len(self.counters))
        at, size = self.counters[number]
        words, amount = self.amount()
        words = words + constant(AT, at) + constant(LOCK, LOCKS_AT + 4 * number) + [move(OPERAND, 1, HART)] + self.hint(AT)
        words += [atomic(SWAP, OPERAND, LOCK, self.random.choice((0, OLD)), ACQUIRE)] + self.hint(AT)
        words += [load_unsigned(size, VALUE, 0, AT), add(VALUE, VALUE, AMOUNT), store(size, VALUE, 0, AT)] + self.hint(SCRATCH)
        return self.free(words), self.freed(self.adding(at, size, amount))

    def spin(self):
        """A counter under a lock in memory, which LR and SC take."""
        lock, at = self.random.choice(self.spins)
        words, amount = self.amount()
        words = words + constant(AT, at) + constant(LOCK, lock) + [move(OPERAND, 1, HART)]
        words += [atomic(LR, 0, LOCK, VALUE, self.random.choice((ACQUIRE, BOTH))), b_type(-4, 0, VALUE, 1)]
        words += [atomic(SC, OPERAND, LOCK, FAILED, self.random.choice((RELEASE, BOTH))), b_type(-12, 0, FAILED, 1)]
        words += self.hint(AT) + [load_word(VALUE, 0, AT), add(VALUE, VALUE, AMOUNT), store(4, VALUE, 0, AT)]
        return self.free(words), self.freed(self.adding(at, 4, amount))

    def free(self, words):
        """Gives a lock back, which held the hart's number and 1."""
        return words + [atomic(SWAP, 0, LOCK, OLD, RELEASE)] + fold(OLD)

    def freed(self, act):
        def run(world):
            act(world)
            for hart in world.harts:
                world.fold(hart, hart + 1)

        return run

    def loop(self):
        """An LR/SC loop on a shared word, with labels of every kind."""
        words, amount = self.amount()
        labels = [self.random.choice((ACQUIRE, RELEASE, BOTH)) for _ in range(2)]
        return words + constant(AT, self.atoms[ADD]) + self.reserve_and_add(AMOUNT, *labels), self.adding(self.atoms[ADD], 4, amount)

    def atomic(self):
        """A labelled atomic operation on a shared word."""
        operation = self.random.choice(sorted(FOLDS))
        at = self.atoms[operation]
        self.used.add((at, 4))
        words, amount = self.amount()

        def act(world):
            for hart in world.harts:
                world.shared[at] = FOLDS[operation](world.shared.get(at, 0), amount(hart))

        labels = self.random.choice((ACQUIRE, RELEASE, BOTH))
        return words + constant(AT, at) + [atomic(operation, AMOUNT, AT, self.random.choice((0, OLD)), labels)], act

    def message(self):
        """Each hart writes words and a flag, waits for the flag of another, and folds that one's words."""
        shift, length, far = self.random.choice((2, 4)), self.random.randrange(1, 5), self.random.randrange(1, 4)
        flags, messages = FLAGS_AT + PAGE * self.messages, MESSAGES_AT + PAGE * self.messages
        self.messages += 1
        words = [i_type(4, HART, 1, VALUE, 0b0010011)] + constant(AT, messages) + [add(AT, AT, VALUE)]
        for number in range(length):
            words += [move(VALUE, number, FOLDED), store(4, VALUE, 4 * number, AT)]
        words += constant(LOCK, flags) + [i_type(shift, HART, 1, VALUE, 0b0010011), add(OLD, LOCK, VALUE), move(OPERAND, 1)]
        words += self.hint(AT) + [atomic(self.random.choice((SWAP, ADD, OR)), OPERAND, OLD, 0, self.random.choice((RELEASE, BOTH)))]
        # x5 is the number of the other hart.
        words += [move(VALUE, far, HART), b_type(8, HARTS, VALUE, 6), r_type(0b0100000, HARTS, VALUE, 0, VALUE, 0b0110011)]
        words += [i_type(shift, VALUE, 1, OPERAND, 0b0010011), add(OLD, LOCK, OPERAND)]
        wait = self.random.choice((atomic(LR, 0, OLD, FAILED, ACQUIRE), atomic(ADD, 0, OLD, FAILED, self.random.choice((ACQUIRE, BOTH)))))
        words += [wait, b_type(-4, 0, FAILED, 0)]
        words += [i_type(4, VALUE, 1, VALUE, 0b0010011)] + constant(AT, messages) + [add(AT, AT, VALUE)]
        for number in range(length):
            words += [load_word(VALUE, 4 * number, AT)] + fold(VALUE)

        def act(world):
            sent = list(world.folded)
            for hart in world.harts:
                for number in range(length):
                    world.fold(hart, sent[(hart + far) % len(sent)] + number & MASK)

        return words, act

    def put(self):
        """Puts bytes, under a lock word or not."""
        base, length, is_locked = self.random.randrange(256), self.random.randrange(1, 5), self.random.random() < 0.7
        words = [move(CALL_REGISTER, 1)]
        for number in range(length):
            words += [move(10, base + number, HART), ECALL]
        if is_locked:
            words = constant(LOCK, LOCKS_AT + 4 * CONSOLE_LOCK) + [move(OPERAND, 1), atomic(SWAP, OPERAND, LOCK, 0, ACQUIRE)] + words
            words.append(atomic(SWAP, 0, LOCK, 0, RELEASE))

        def act(world):
            for hart in world.harts:
                world.puts[hart] += bytes(base + number + hart & 0xFF for number in range(length))

        return words, act


def fault_of(program, harts, report):
    """What differs between a judged report, whose harts all exited, and what is expected on so many harts; or None."""
    world, registers = program.expected(harts)
    if sorted(report.console) != sorted(b"".join(world.puts)):
        return f"the console has the bytes {bytes(sorted(report.console))!r}"
    for hart, printed in enumerate(report.harts):
        if printed.end != f"exit {world.folded[hart]:08x}":
            return f"hart {hart} ends by {printed.end}, and should by exit {world.folded[hart]:08x}"
        found = [int(value, 16) for value in printed.registers]
        if found != registers[hart]:
            return f"hart {hart} has the registers {found}, and should have {registers[hart]}"
    return None


def main():
    if len(sys.argv) != 4:
        sys.exit("usage: labelled.py SEED HARTS FILE")
    program = Program(int(sys.argv[1]))
    with open(sys.argv[3], "wb") as file:
        file.write(program.image())
    world, registers = program.expected(int(sys.argv[2]))
    for hart, values in enumerate(registers):
        print(f"hart {hart} puts {bytes(world.puts[hart])!r} and ends with {' '.join(f'{value:x}' for value in values)}")


if __name__ == "__main__":
    main()
