#!/usr/bin/env python3
"""An interpreter of its own for what `dash run` serves, to compare the program with.

    python3 tests/reference.py IMAGE [CLUSTERS HARTS BUDGET]

prints the report of IMAGE and ends with its exit status. It is written from the RISC-V unprivileged
manual (chapters "RV32I Base Integer Instruction Set", "M", "A" and "Zicbop") and from docs/instructions.md and
docs/formats.md. It shares no code with the program, takes one slow step for each instruction, and is not
proved.
"""

import functools
import os
import re
import struct
import sys

BASE = 0
MEMORY = 1024 * 1024
LOCK_WORDS = 64
LOCKS_AT = BASE + MEMORY
BUDGET = 1_000_000
FILE_LIMIT = 33_554_432
MASK = 0xFFFFFFFF
ALL_BYTES = 0xF

MOST_CLUSTERS = 16
MOST_HARTS = 4
MOST_BUDGET = 2_147_483_647
MOST_INSTRUCTIONS = 2_000_000

PT_LOAD, PF_X, PF_W = 1, 1, 2

# The statuses that the program can end with.
EXITED, USAGE, REFUSED, MISSHAPEN, FAULT, SPENT, TRAPPED, WAITING = 0, 2, 3, 4, 5, 10, 11, 12

USAGE_LINE = (
    b"dash: usage: dash run IMAGE [TOPOLOGY [--log] | CLUSTERS HARTS BUDGET [--log]] | dash gen SEED\n"
)


class Refusal(Exception):
    """Why an image is not accepted, as it stands in the line on standard error."""


class Stop(Exception):
    """The end of the hart: an exit, or a trap with its cause and value."""

    def __init__(self, text, is_trap):
        super().__init__(text)
        self.text = text
        self.is_trap = is_trap


class Wait(Exception):
    """The hart asks for a lock word that is not 0."""


def trap(cause, value):
    return Stop(f"trap {cause} {value & MASK:08x}", True)


class Segment:
    """A program header that counts: its number in the table, and its fields."""

    def __init__(self, number, fields):
        self.number = number
        _, self.offset, self.first, _, self.filesz, self.memsz, flags, _ = fields
        self.end = self.first + self.memsz
        self.is_code = flags & PF_X != 0
        self.has_stores = flags & PF_W != 0


def header_refusal(data):
    """Why the file header is not accepted, or None."""
    if len(data) < 52:
        return f"1 short at {len(data)}"
    e_type, e_machine = struct.unpack_from("<HH", data, 16)
    (e_phoff,) = struct.unpack_from("<I", data, 28)
    (e_flags,) = struct.unpack_from("<I", data, 36)
    e_phentsize, e_phnum = struct.unpack_from("<HH", data, 42)
    if len(data) < e_phoff + 32 * e_phnum:
        return f"1 short at {len(data)}"
    if data[:4] != b"\x7fELF":
        return "2 not an ELF file"
    if data[4] != 1 or data[5] != 1:
        return "3 not class 32 little endian"
    if e_machine != 243:
        return "4 not for RISC-V"
    if e_type != 2:
        return "5 not an executable"
    if e_flags & 1:
        return "6 compressed instructions"
    if e_flags & 8:
        return "7 reduced registers"
    if e_phnum != 0 and e_phentsize != 32:
        return f"8 header size {e_phentsize}"
    return None


def segments_of(data):
    """The headers of type PT_LOAD in their order, but for those of no bytes at all."""
    (e_phoff,) = struct.unpack_from("<I", data, 28)
    (e_phnum,) = struct.unpack_from("<H", data, 44)
    segments = []
    for number in range(e_phnum):
        fields = struct.unpack_from("<8I", data, e_phoff + 32 * number)
        if fields[0] == PT_LOAD and (fields[4], fields[5]) != (0, 0):
            segments.append(Segment(number, fields))
    return segments


def overlapping(segments):
    """The first two segments that share an address, by the first one's number and then the other's, or None.

    Each is in memory and has a byte there. They are drawn on a map of memory from the last to the first, so that
    what is found drawn is of a later one, and what is found last is of the first one that shares an address.
    """
    drawn = bytearray(MEMORY)
    found = None
    for place in range(len(segments) - 1, -1, -1):
        one = segments[place]
        first, end = one.first - BASE, one.end - BASE
        if drawn.find(1, first, end) >= 0:
            found = place
        if drawn.find(0, first, end) >= 0:
            drawn[first:end] = b"\1" * (end - first)
    if found is None:
        return None
    one = segments[found]
    for other in segments[found + 1 :]:
        if one.first < other.end and other.first < one.end:
            return one, other
    raise AssertionError("what is drawn is of a later segment")


def segment_refusal(data, segments):
    """Why the segments are not accepted, or None."""
    for one in segments:
        if one.offset + one.filesz > len(data):
            return f"9 segment {one.number} out of file"
    for one in segments:
        if one.filesz > one.memsz:
            return f"10 segment {one.number} file size above memory size"
    for one in segments:
        if one.first < BASE or one.end > BASE + MEMORY:
            return f"11 segment {one.number} out of memory"
    pair = overlapping(segments)
    if pair is not None:
        return f"12 segments {pair[0].number} and {pair[1].number} overlap"
    if not segments:
        return "13 no segment"
    (entry,) = struct.unpack_from("<I", data, 24)
    if entry % 4 != 0 or not any(one.is_code and one.first <= entry and entry + 4 <= one.end for one in segments):
        return f"14 entry {entry:08x} not executable"
    return None


class Image:
    """The entry of an accepted file, its segments, and the memory that they make."""

    def __init__(self, data):
        refusal = header_refusal(data)
        if refusal is None:
            segments = segments_of(data)
            refusal = segment_refusal(data, segments)
        if refusal is not None:
            raise Refusal(refusal)
        (self.entry,) = struct.unpack_from("<I", data, 24)
        self.segments = segments
        self.opening = bytearray(MEMORY)
        for one in segments:
            at = one.first - BASE
            self.opening[at : at + one.filesz] = data[one.offset : one.offset + one.filesz]
        self.fetched = {}

    def fetch(self, pc):
        """The word at pc from the loaded bytes, or None where no segment of code has all four of them."""
        if pc not in self.fetched:
            is_code = any(one.is_code and one.first <= pc and pc + 4 <= one.end for one in self.segments)
            word = int.from_bytes(self.opening[pc - BASE : pc - BASE + 4], "little")
            self.fetched[pc] = word if is_code else None
        return self.fetched[pc]

    def is_writable(self, address, size):
        """False exactly where one of these bytes is in a segment without PF_W."""
        return all(one.has_stores or address + size <= one.first or one.end <= address for one in self.segments)


def signed(value, width=32):
    """The signed number whose two's complement the low bits of value are."""
    value &= (1 << width) - 1
    return value - (1 << width) if value >> (width - 1) else value


def field(word, high, low):
    return (word >> low) & ((1 << (high - low + 1)) - 1)


@functools.lru_cache(maxsize=4096)
def fields_of(word):
    """opcode, rd, funct3, rs1, rs2 and funct7."""
    return tuple(field(word, high, low) for high, low in ((6, 0), (11, 7), (14, 12), (19, 15), (24, 20), (31, 25)))


def i_immediate(word):
    return signed(field(word, 31, 20), 12)


def s_immediate(word):
    return signed(field(word, 31, 25) << 5 | field(word, 11, 7), 12)


def b_immediate(word):
    bits = field(word, 31, 31) << 12 | field(word, 7, 7) << 11 | field(word, 30, 25) << 5 | field(word, 11, 8) << 1
    return signed(bits, 13)


def u_immediate(word):
    return word & 0xFFFFF000


def j_immediate(word):
    bits = field(word, 31, 31) << 20 | field(word, 19, 12) << 12 | field(word, 20, 20) << 11 | field(word, 30, 21) << 1
    return signed(bits, 21)


def quotient(a, b):
    """Of two numbers with any signs, rounded towards zero; the divisor is not 0."""
    size = abs(a) // abs(b)
    return size if (a < 0) == (b < 0) else -size


# By funct3 and funct7. Results are cut to 32 bits by the caller: the quotient of -2^31 by -1, too, which makes it -2^31.
ARITHMETIC = {
    (0b000, 0b0000000): lambda a, b: a + b,
    (0b000, 0b0100000): lambda a, b: a - b,
    (0b001, 0b0000000): lambda a, b: a << (b & 31),
    (0b010, 0b0000000): lambda a, b: int(signed(a) < signed(b)),
    (0b011, 0b0000000): lambda a, b: int(a < b),
    (0b100, 0b0000000): lambda a, b: a ^ b,
    (0b101, 0b0000000): lambda a, b: a >> (b & 31),
    (0b101, 0b0100000): lambda a, b: signed(a) >> (b & 31),
    (0b110, 0b0000000): lambda a, b: a | b,
    (0b111, 0b0000000): lambda a, b: a & b,
    (0b000, 0b0000001): lambda a, b: a * b,
    (0b001, 0b0000001): lambda a, b: signed(a) * signed(b) >> 32,
    (0b010, 0b0000001): lambda a, b: signed(a) * b >> 32,
    (0b011, 0b0000001): lambda a, b: a * b >> 32,
    (0b100, 0b0000001): lambda a, b: quotient(signed(a), signed(b)) if b else MASK,
    (0b101, 0b0000001): lambda a, b: a // b if b else MASK,
    (0b110, 0b0000001): lambda a, b: signed(a) - signed(b) * quotient(signed(a), signed(b)) if b else a,
    (0b111, 0b0000001): lambda a, b: a % b if b else a,
}

# The funct7 of multiplications and divisions, which have no form with an immediate.
MULTIPLY = 0b0000001

BRANCHES = {
    0b000: lambda a, b: a == b,
    0b001: lambda a, b: a != b,
    0b100: lambda a, b: signed(a) < signed(b),
    0b101: lambda a, b: signed(a) >= signed(b),
    0b110: lambda a, b: a < b,
    0b111: lambda a, b: a >= b,
}

# By funct3: the size in bytes, and whether the value is signed.
LOADS = {0b000: (1, True), 0b001: (2, True), 0b010: (4, False), 0b100: (1, False), 0b101: (2, False)}
STORES = {0b000: 1, 0b001: 2, 0b010: 4}


# By funct5: what the operation makes of the word and the operand.
ATOMICS = {
    0b00001: lambda a, b: b,
    0b00000: lambda a, b: a + b,
    0b00100: lambda a, b: a ^ b,
    0b01100: lambda a, b: a & b,
    0b01000: lambda a, b: a | b,
    0b10000: lambda a, b: min(a, b, key=signed),
    0b10100: lambda a, b: max(a, b, key=signed),
    0b11000: min,
    0b11100: max,
}
SWAP, LR, SC = 0b00001, 0b00010, 0b00011

# The low five bits of the immediate of an ORI with rd 0 that is a hint to fetch, to read or to write.
HINTS = (0b00000, 0b00001, 0b00011)

LABELS = {(0, 0): "-", (1, 0): "a", (0, 1): "r", (1, 1): "ar"}


class Machine:
    """Memory, lock words and console, the harts that share them, and the accesses so far.

    An SC may fail always: those in `failing`, each by its hart and the number of its instruction, do.
    """

    def __init__(self, image, clusters=1, harts=1, budget=BUDGET, failing=frozenset()):
        self.image = image
        self.budget = budget
        self.failing = failing
        self.memory = bytearray(image.opening)
        self.locks = [0] * LOCK_WORDS
        self.console = bytearray()
        self.accesses = []
        # The addresses of hints, and the accesses of SCs that failed only since they were to.
        self.hints = []
        self.made_to_fail = []
        count = clusters * harts
        stack = MEMORY // (4 * count) // 16 * 16
        self.harts = [Hart(self, number, count, stack) for number in range(count)]

    def run(self):
        """Takes the harts in rotation, an instruction a turn, until a whole round passes all over."""
        goes = True
        while goes:
            goes = False
            for hart in self.harts:
                if hart.end is None and hart.retired < self.budget:
                    goes |= hart.turn()

    def status(self):
        if any(hart.is_trapped for hart in self.harts):
            return TRAPPED
        left = [hart for hart in self.harts if hart.end is None]
        if any(hart.retired >= self.budget for hart in left):
            return SPENT
        return WAITING if left else EXITED

    def report(self):
        """The whole of standard output."""
        lines = []
        for hart in self.harts:
            lines.append(f"hart {hart.number} {hart.end_text()} pc {hart.pc:08x} retired {hart.retired}")
            for first in (0, 8, 16, 24):
                words = " ".join(f"{value:08x}" for value in hart.registers[first : first + 8])
                lines.append(f"x{first} {words}")
        lines.append(f"status {self.status()}")
        lines.append(f"accesses {len(self.accesses)}")
        lines += self.accesses
        sections = "".join(line + "\n" for line in lines)
        return b"console %d\n" % len(self.console) + bytes(self.console) + b"\n" + sections.encode()


class Hart:
    """One hart of a machine."""

    def __init__(self, machine, number, count, stack):
        self.machine = machine
        self.number = number
        self.pc = machine.image.entry
        self.registers = [0] * 32
        self.registers[2] = BASE + MEMORY - number * stack
        self.registers[10] = number
        self.registers[11] = count
        self.retired = 0
        self.end = None
        self.is_trapped = False
        self.reserved = None

    def end_text(self):
        if self.end is not None:
            return self.end
        return "waits" if self.retired < self.machine.budget else "budget"

    def turn(self):
        """One instruction, where the hart needn't wait; whether it did one."""
        try:
            self.step()
        except Wait:
            return False
        except Stop as stop:
            self.end = stop.text
            self.is_trapped = stop.is_trap
            self.retired += int(not stop.is_trap)
        return True

    def check(self, address, size, is_store):
        """The traps of a data access, in their order."""
        if address % size != 0:
            raise trap("misaligned", address)
        if LOCKS_AT <= address < LOCKS_AT + 4 * LOCK_WORDS:
            raise trap("lockuse", address)
        if address < BASE or address + size > BASE + MEMORY:
            raise trap("unmapped", address)
        if is_store and not self.machine.image.is_writable(address, size):
            raise trap("readonly", address)

    def record(self, op, labels, address, size, read, written):
        """Adds the line of an access. What is read and written stands in its place in the word, beside zeros."""
        place = address % 4
        mask = ((1 << size) - 1) << place
        values = ("-" if value is None else f"{(value & MASK) << 8 * place:08x}" for value in (read, written))
        self.machine.accesses.append(
            f"{self.number} {self.retired + 1} {op} {labels} {address - place:08x} {mask:x} {' '.join(values)} -"
        )

    def bytes_at(self, address, size):
        at = address - BASE
        return int.from_bytes(self.machine.memory[at : at + size], "little")

    def write(self, address, size, value):
        """Writes bytes, and removes the reservations of their word that other harts have."""
        at = address - BASE
        self.machine.memory[at : at + size] = value.to_bytes(size, "little")
        for hart in self.machine.harts:
            if hart is not self and hart.reserved == address - address % 4:
                hart.reserved = None

    def load(self, address, size, is_signed):
        self.check(address, size, False)
        value = self.bytes_at(address, size)
        self.record("load", "-", address, size, value, None)
        return signed(value, 8 * size) if is_signed else value

    def store(self, address, size, value):
        self.check(address, size, True)
        value &= (1 << 8 * size) - 1
        self.record("store", "-", address, size, None, value)
        self.write(address, size, value)

    def lock_word(self, operation, aq, rl, address, operand):
        """The two uses of a lock word: to ask for it, and to give it back."""
        index = (address - LOCKS_AT) // 4
        old = self.machine.locks[index]
        if (operation, aq, rl) == (SWAP, 1, 0) and operand != 0:
            if old != 0:
                raise Wait
            self.record("ask", "a", address, 4, 0, operand)
            self.machine.locks[index] = operand
        elif (operation, aq, rl) == (SWAP, 0, 1) and operand == 0:
            self.record("unlock", "r", address, 4, old, 0)
            self.machine.locks[index] = 0
        else:
            raise trap("lockuse", address)
        return old

    def atomic(self, operation, aq, rl, address, operand):
        """LR, SC or another atomic operation; what it answers."""
        labels = LABELS[aq, rl]
        if operation == LR:
            self.check(address, 4, False)
            value = self.bytes_at(address, 4)
            self.record("lr", labels, address, 4, value, None)
            self.reserved = address
            return value
        if address % 4 == 0 and LOCKS_AT <= address < LOCKS_AT + 4 * LOCK_WORDS:
            return self.lock_word(operation, aq, rl, address, operand)
        self.check(address, 4, True)
        if operation == SC:
            has_reserved, must_fail = self.reserved == address, (self.number, self.retired + 1) in self.machine.failing
            succeeds = has_reserved and not must_fail
            self.reserved = None
            self.record("sc", labels, address, 4, None, operand if succeeds else None)
            if has_reserved and must_fail:
                self.machine.made_to_fail.append(address)
            if succeeds:
                self.write(address, 4, operand)
            return int(not succeeds)
        old = self.bytes_at(address, 4)
        new = ATOMICS[operation](old, operand) & MASK
        self.record("amo", labels, address, 4, old, new)
        self.write(address, 4, new)
        return old

    def step(self):
        """One instruction. A trap, an exit or a wait is raised before anything changed."""
        word = self.machine.image.fetch(self.pc)
        if word is None:
            raise trap("fetch", self.pc)
        opcode, rd, funct3, rs1, rs2, funct7 = fields_of(word)
        a, b = self.registers[rs1], self.registers[rs2]
        target = self.pc + 4
        result = None

        if opcode == 0b0110111:  # LUI
            result = u_immediate(word)
        elif opcode == 0b0010111:  # AUIPC
            result = self.pc + u_immediate(word)
        elif opcode == 0b1101111:  # JAL
            result, target = target, self.pc + j_immediate(word)
        elif opcode == 0b1100111:  # JALR
            if funct3 != 0:
                raise trap("illegal", word)
            result, target = target, (a + i_immediate(word)) & ~1
        elif opcode == 0b1100011:  # BEQ to BGEU
            if funct3 not in BRANCHES:
                raise trap("illegal", word)
            if BRANCHES[funct3](a, b):
                target = self.pc + b_immediate(word)
        elif opcode == 0b0000011:  # LB to LHU
            if funct3 not in LOADS:
                raise trap("illegal", word)
            size, is_signed = LOADS[funct3]
            result = self.load((a + i_immediate(word)) & MASK, size, is_signed)
        elif opcode == 0b0100011:  # SB to SW
            if funct3 not in STORES:
                raise trap("illegal", word)
            self.store((a + s_immediate(word)) & MASK, STORES[funct3], b)
        elif opcode == 0b0010011:  # ADDI to SRAI; the prefetches are ORI with rd 0, and change nothing either
            if funct3 in (0b001, 0b101):
                row, operand = (funct3, funct7), rs2
            else:
                row, operand = (funct3, 0), i_immediate(word) & MASK
            if funct3 == 0b110 and rd == 0 and operand & 0b11111 in HINTS:
                self.machine.hints.append(a + (operand & ~0b11111) & MASK)
            if row not in ARITHMETIC or row[1] == MULTIPLY:
                raise trap("illegal", word)
            result = ARITHMETIC[row](a, operand)
        elif opcode == 0b0110011:  # ADD to REMU
            if (funct3, funct7) not in ARITHMETIC:
                raise trap("illegal", word)
            result = ARITHMETIC[funct3, funct7](a, b)
        elif opcode == 0b0101111:  # LR to AMOMAXU
            operation = field(word, 31, 27)
            is_row = operation in ATOMICS or operation == SC or operation == LR and rs2 == 0
            if funct3 != 0b010 or not is_row:
                raise trap("illegal", word)
            result = self.atomic(operation, field(word, 26, 26), field(word, 25, 25), a, b)
        elif opcode == 0b0001111:  # FENCE: accesses are performed at once, so there is nothing to wait for
            if funct3 != 0:
                raise trap("illegal", word)
        elif word == 0x00000073:  # ECALL
            self.call()
        elif word == 0x00100073:  # EBREAK
            raise trap("break", 0)
        else:
            raise trap("illegal", word)

        target &= MASK
        if target % 4 != 0:
            raise trap("misaligned", target)
        if result is not None and rd != 0:
            self.registers[rd] = result & MASK
        self.pc = target
        self.retired += 1

    def call(self):
        number, value = self.registers[17], self.registers[10]
        if number == 93:
            raise Stop(f"exit {value:08x}", False)
        if number != 1:
            raise trap("badcall", number)
        self.machine.console.append(value & 0xFF)


def topology_refusal(clusters, harts, budget):
    """Why a topology is not accepted, or None."""
    if not 1 <= clusters <= MOST_CLUSTERS:
        return "range clusters"
    if not 1 <= harts <= MOST_HARTS:
        return "range harts"
    if not 1 <= budget <= MOST_BUDGET:
        return "range budget"
    if clusters * harts * budget > MOST_INSTRUCTIONS:
        return "too much"
    return None


def refusal_of(data, clusters, harts, budget):
    """The line on standard error and the status of what is refused, or None."""
    refusal = topology_refusal(clusters, harts, budget)
    if refusal is not None:
        return f"dash: topology: {refusal}\n".encode(), MISSHAPEN
    try:
        Image(data)
    except Refusal as refusal:
        return f"dash: image: {refusal}\n".encode(), REFUSED
    return None


def run_bytes(data, clusters=1, harts=1, budget=BUDGET):
    """What the program prints on standard output and on standard error for these bytes, and its status."""
    refused = refusal_of(data, clusters, harts, budget)
    if refused is not None:
        return b"", *refused
    machine = Machine(Image(data), clusters, harts, budget)
    machine.run()
    return machine.report(), b"", machine.status()


def number_of(word):
    """The number that a word spells, or None: ten digits at most, no needless zero, 32 bits."""
    if not re.fullmatch(b"0|[1-9][0-9]{0,9}", word):
        return None
    number = int(word)
    return number if number <= MASK else None


def run_words(words):
    """The same for the words of a command line without the program's own name."""
    usage = b"", USAGE_LINE, USAGE
    if len(words) not in (2, 5) or words[0] != b"run" or words[1] == b"" or words[1].startswith(b"-"):
        return usage
    try:
        b" ".join(words).decode("utf-8")
    except UnicodeDecodeError:
        return usage
    numbers = [number_of(word) for word in words[2:]]
    if None in numbers:
        return usage
    name = words[1]
    try:
        with open(name, "rb") as file:
            data = file.read(FILE_LIMIT + 1)
            size = os.fstat(file.fileno()).st_size
    except OSError:
        return b"", b"dash: " + name + b": read failed\n", FAULT
    if len(data) > FILE_LIMIT:
        return b"", b"dash: " + name + b": %d bytes, limit %d\n" % (size, FILE_LIMIT), FAULT
    return run_bytes(data, *numbers)


def main():
    out, err, status = run_words([b"run"] + [os.fsencode(word) for word in sys.argv[1:]])
    sys.stdout.buffer.write(out)
    sys.stderr.buffer.write(err)
    sys.stdout.flush()
    sys.exit(status)


if __name__ == "__main__":
    main()
