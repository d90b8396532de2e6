"""A plain assembler for the source of docs/formats.md, that shares no code with the program."""

import re
import struct

from encoding import b_type, constant, i_type, j_type, r_type, s_type, u_type

CAUSES = ("Shape", "Name", "Immediate", "Twice", "Missing", "NoSegment", "TooLong")
REGISTERS = "zero ra sp gp tp t0 t1 t2 s0 s1 a0 a1 a2 a3 a4 a5 a6 a7 s2 s3 s4 s5 s6 s7 s8 s9 s10 s11 t3 t4 t5 t6".split()
UPPER = {"lui": 0b0110111, "auipc": 0b0010111}
BRANCHES = {"beq": 0, "bne": 1, "blt": 4, "bge": 5, "bltu": 6, "bgeu": 7}
LOADS = {"lb": 0, "lh": 1, "lw": 2, "lbu": 4, "lhu": 5}
STORES = {"sb": 0, "sh": 1, "sw": 2}
IMMEDIATES = {"addi": 0, "slti": 2, "sltiu": 3, "xori": 4, "ori": 6, "andi": 7}
SHIFTS = {"slli": (1, 0), "srli": (5, 0), "srai": (5, 0x400)}
OPERATIONS = {
    **{name: (funct3, 0) for name, funct3 in zip("add sll slt sltu xor srl or and".split(), range(8))},
    "sub": (0, 0x20),
    "sra": (5, 0x20),
    **{name: (funct3, 1) for name, funct3 in zip("mul mulh mulhsu mulhu div divu rem remu".split(), range(8))},
}
ATOMICS = {
    "lr": 2, "sc": 3, "amoswap": 1, "amoadd": 0, "amoxor": 4, "amoand": 12, "amoor": 8, "amomin": 16, "amomax": 20, "amominu": 24, "amomaxu": 28,
}
SUFFIXES = {".w": 0, ".w.aq": 2, ".w.rl": 1, ".w.aqrl": 3}
ALONE = {"ecall": 0x73, "ebreak": 0x100073, "nop": 0x13}
PREFETCHES = {"prefetch.i": 0, "prefetch.r": 1, "prefetch.w": 3}
FENCE_SETS = {"".join(letter for letter, bit in zip("iorw", (8, 4, 2, 1)) if number & bit) or "0": number for number in range(16)}
NAME = r"[A-Za-z_][A-Za-z0-9_]{0,31}"
TOP = 1 << 32


class Line:
    """What a line says, and the faults that it has for itself: fields are read one after the other."""

    def __init__(self, text):
        self.faults = set()
        # Where not None: a label that is defined or named, a segment's address and flags, so many zeros.
        self.defines = self.names = self.segment = self.entry = None
        self.size, self.code = 0, lambda at, address: b""
        statement = text.split("#")[0].strip(" \t")
        if statement:
            word, *rest = re.split("[ \t]", statement, maxsplit=1)
            rest = "".join(rest).strip(" \t")
            self.statement(word, [operand.strip(" \t") for operand in rest.split(",")] if rest else [])

    def statement(self, word, operands):
        row = self.row(word)
        if row is not None:
            count, read = row
            if len(operands) == count:
                read(*operands)
            else:
                self.faults.add("Shape")
        elif re.fullmatch(r"[A-Za-z0-9_.]+", word):
            self.faults.add("Name")
        elif re.fullmatch(NAME + ":", word) and not operands:
            self.defines = word[:-1]
        else:
            self.faults.add("Shape")

    # Fields

    def register(self, word):
        if word in REGISTERS:
            return REGISTERS.index(word)
        self.faults.add("Name" if re.fullmatch("[A-Za-z0-9]+", word) else "Shape")
        return 0

    def number(self, word, least, greatest, step=1):
        if re.fullmatch("-?[0-9]+", word):
            value = int(word)
        elif re.fullmatch("0x[0-9A-Fa-f]{1,8}", word):
            value = int(word, 16)
        else:
            self.faults.add("Shape")
            return 0
        if not least <= value <= greatest or value % step:
            self.faults.add("Immediate")
            return 0
        return value

    def place(self, word, least=-2048, greatest=2047, step=1):
        found = re.fullmatch(r"([^(]*)\((.*)\)", word, re.DOTALL)
        if not found:
            self.faults.add("Shape")
            return 0, 0
        return self.number(found[1], least, greatest, step), self.register(found[2])

    def bare(self, word):
        if not word.startswith("(") or not word.endswith(")") or len(word) < 2:
            self.faults.add("Shape")
            return 0
        return self.register(word[1:-1])

    # What is put

    def put(self, word):
        self.size, self.code = 4, lambda at, address: struct.pack("<I", word % TOP)

    def put_pair(self, rd, value):
        self.size, self.code = 8, lambda at, address: struct.pack("<2I", *constant(rd, value(address) % TOP))

    def reach(self, target, bits, encode):
        """A jump or branch to a label, or by an offset of so many bits."""
        if re.fullmatch(NAME, target):
            self.names, self.bits, self.size = target, bits, 4
            self.code = lambda at, address: struct.pack("<I", encode(address - at))
        else:
            self.put(encode(self.number(target, -(1 << bits - 1), (1 << bits - 1) - 2, 2)))

    bits = None

    # Rows

    def row(self, word):
        """How many operands the word takes, and what reads them; None for what is no mnemonic or directive."""
        stem, dot, suffix = word.partition(".")
        if stem in ATOMICS and dot + suffix in SUFFIXES:
            labels = SUFFIXES[dot + suffix]
            return (2, lambda a, b: self.reserve(labels, a, b)) if stem == "lr" else (3, lambda a, b, c: self.atomic(stem, labels, a, b, c))
        for names, count, read in (
            (UPPER, 2, lambda a, b: self.put(u_type(self.number(b, 0, 0xFFFFF), self.register(a), UPPER[word]))),
            (BRANCHES, 3, lambda a, b, c: self.branch(BRANCHES[word], self.register(a), self.register(b), c)),
            (LOADS, 2, lambda a, b: self.load(LOADS[word], 0b0000011, a, b)),
            (("jalr",), 2, lambda a, b: self.load(0, 0b1100111, a, b)),
            (STORES, 2, lambda a, b: self.store(STORES[word], a, b)),
            (IMMEDIATES, 3, lambda a, b, c: self.immediate(IMMEDIATES[word], a, b, self.number(c, -2048, 2047))),
            (SHIFTS, 3, lambda a, b, c: self.immediate(SHIFTS[word][0], a, b, self.number(c, 0, 31) | SHIFTS[word][1])),
            (OPERATIONS, 3, lambda a, b, c: self.put(r_type(OPERATIONS[word][1], self.register(c), self.register(b), OPERATIONS[word][0], self.register(a), 0b0110011))),
            (ALONE, 0, lambda: self.put(ALONE[word])),
            (PREFETCHES, 1, lambda a: self.prefetch(PREFETCHES[word], a)),
            (("fence",), 2, self.fence),
            (("jal",), 2, lambda a, b: self.jump(self.register(a), b)),
            (("j",), 1, lambda a: self.jump(0, a)),
            (("mv",), 2, lambda a, b: self.immediate(0, a, b, 0)),
            (("li",), 2, self.load_immediate),
            (("la",), 2, self.load_address),
            ((".text",), 1, lambda a: self.begin(a, 5)),
            ((".data",), 1, lambda a: self.begin(a, 6)),
            ((".word",), 1, self.word),
            ((".space",), 1, self.space),
            ((".entry",), 1, self.set_entry),
        ):
            if word in names:
                return count, read
        return None

    def reserve(self, labels, a, b):
        rd, base = self.register(a), self.bare(b)
        self.put(r_type(2 << 2 | labels, 0, base, 2, rd, 0b0101111))

    def atomic(self, stem, labels, a, b, c):
        rd, source, base = self.register(a), self.register(b), self.bare(c)
        self.put(r_type(ATOMICS[stem] << 2 | labels, source, base, 2, rd, 0b0101111))

    def branch(self, funct3, first, second, target):
        self.reach(target, 13, lambda offset: b_type(offset, second, first, funct3))

    def jump(self, rd, target):
        self.reach(target, 21, lambda offset: j_type(offset, rd))

    def load(self, funct3, opcode, a, b):
        rd, (offset, base) = self.register(a), self.place(b)
        self.put(i_type(offset, base, funct3, rd, opcode))

    def store(self, funct3, a, b):
        source, (offset, base) = self.register(a), self.place(b)
        self.put(s_type(offset, source, base, funct3))

    def immediate(self, funct3, a, b, value):
        rd, source = self.register(a), self.register(b)
        self.put(i_type(value, source, funct3, rd, 0b0010011))

    def prefetch(self, kind, a):
        offset, base = self.place(a, -2048, 2016, 32)
        self.put(i_type(offset + kind, base, 6, 0, 0b0010011))

    def fence(self, a, b):
        if a not in FENCE_SETS or b not in FENCE_SETS:
            self.faults.add("Shape")
        else:
            self.put(i_type(FENCE_SETS[a] << 4 | FENCE_SETS[b], 0, 0, 0, 0b0001111))

    def load_immediate(self, a, b):
        rd, value = self.register(a), self.number(b, -(1 << 31), TOP - 1)
        self.put_pair(rd, lambda address: value)

    def load_address(self, a, b):
        rd = self.register(a)
        self.named(b)
        self.put_pair(rd, lambda address: address)

    def named(self, word):
        if re.fullmatch(NAME, word):
            self.names = word
        else:
            self.faults.add("Shape")

    def begin(self, a, flags):
        self.segment = self.number(a, 0, TOP - 1, 4), flags

    def word(self, a):
        if re.fullmatch(NAME, a):
            self.names, self.size = a, 4
            self.code = lambda at, address: struct.pack("<I", address % TOP)
        else:
            self.put(self.number(a, -(1 << 31), TOP - 1))

    def space(self, a):
        self.size = self.number(a, 0, 1 << 24, 4)
        self.code = lambda at, address: bytes(self.size)

    def set_entry(self, a):
        self.named(a)
        self.entry = a


def labels_of(lines):
    """Where each label is first defined: the line and the address, which is 0 before any segment."""
    labels, place = {}, None
    for number, line in enumerate(lines, 1):
        if line.defines is not None:
            labels.setdefault(line.defines, (number, place or 0))
        if not line.faults:
            place = line.segment[0] if line.segment else place if place is None else place + line.size
    return labels


def cause_of(line, number, place, total, segments, labels):
    """The first cause for which the line is refused."""
    causes = set(line.faults)
    if not causes:
        target = labels.get(line.names)
        if line.bits and target and place is not None:
            offset = target[1] - place
            if offset % 2 or not -(1 << line.bits - 1) <= offset < 1 << line.bits - 1:
                causes.add("Immediate")
        if line.defines is not None and labels[line.defines][0] != number:
            causes.add("Twice")
        if line.names is not None and target is None:
            causes.add("Missing")
        if place is None and not line.segment and (line.size or line.defines is not None):
            causes.add("NoSegment")
        if line.segment and segments == 64 or total + line.size > 1 << 24:
            causes.add("TooLong")
        if not line.segment and place is not None and place + max(line.size, line.defines is not None) > TOP:
            causes.add("TooLong")
    return min(causes, key=CAUSES.index, default=None)


def assemble(source):
    """The executable file of a source; or the least line that is refused, and why."""
    lines = [Line(text) for text in source.split("\n")]
    labels = labels_of(lines)
    place, total, entry, segments = None, 0, None, []
    for number, line in enumerate(lines, 1):
        cause = cause_of(line, number, place, total, len(segments), labels)
        if cause:
            return number, cause
        address = labels[line.names][1] if line.names is not None else 0
        if line.segment:
            place = line.segment[0]
            segments.append((*line.segment, bytearray()))
        elif line.size:
            segments[-1][2].extend(line.code(place, address))
            place, total = place + line.size, total + line.size
        if line.entry is not None:
            entry = address % TOP
    if entry is None:
        entry = segments[0][0] if segments else 0
    return file_of(entry, segments)


def file_of(entry, segments):
    header = b"\x7fELF\1\1\1" + bytes(9) + struct.pack("<HHIIIIIHHHHHH", 2, 243, 1, entry, 52, 0, 0, 52, 32, len(segments), 0, 0, 0)
    table, contents = b"", b""
    place = 52 + 32 * len(segments)
    for address, flags, data in segments:
        table += struct.pack("<8I", 1, place + len(contents), address, address, len(data), len(data), flags, 1)
        contents += data
    return header + table + contents
