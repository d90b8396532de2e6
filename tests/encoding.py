"""Words of instructions by the manual's layout, for the test scripts that write code of their own."""


def r_type(funct7, rs2, rs1, funct3, rd, opcode):
    return funct7 << 25 | rs2 << 20 | rs1 << 15 | funct3 << 12 | rd << 7 | opcode


def i_type(imm, rs1, funct3, rd, opcode):
    return (imm & 0xFFF) << 20 | rs1 << 15 | funct3 << 12 | rd << 7 | opcode


def s_type(imm, rs2, rs1, funct3, opcode=0b0100011):
    return (imm >> 5 & 0x7F) << 25 | rs2 << 20 | rs1 << 15 | funct3 << 12 | (imm & 0x1F) << 7 | opcode


def b_type(imm, rs2, rs1, funct3, opcode=0b1100011):
    return ((imm >> 12 & 1) << 31 | (imm >> 5 & 0x3F) << 25 | rs2 << 20 | rs1 << 15 | funct3 << 12
            | (imm >> 1 & 0xF) << 8 | (imm >> 11 & 1) << 7 | opcode)


def u_type(imm, rd, opcode):
    return (imm & 0xFFFFF) << 12 | rd << 7 | opcode


def j_type(imm, rd, opcode=0b1101111):
    return ((imm >> 20 & 1) << 31 | (imm >> 1 & 0x3FF) << 21 | (imm >> 11 & 1) << 20
            | (imm >> 12 & 0xFF) << 12 | rd << 7 | opcode)


def atomic(funct5, rs2, rs1, rd, labels=0):
    """An operation of the A extension; labels has aq in its bit 1 and rl in its bit 0."""
    return r_type(funct5 << 2 | labels, rs2, rs1, 0b010, rd, 0b0101111)


def load_word(rd, offset, rs1):
    return i_type(offset, rs1, 2, rd, 0b0000011)


def move(rd, imm, rs1=0):
    return i_type(imm, rs1, 0, rd, 0b0010011)


def constant(rd, value):
    """The two words that set a register to a value."""
    low = (value & 0xFFF) - (0x1000 if value & 0x800 else 0)
    return [u_type((value - low) >> 12, rd, 0b0110111), i_type(low, rd, 0, rd, 0b0010011)]


MULTIPLY = 0b0000001
ECALL, EBREAK, NOP = 0x00000073, 0x00100073, 0x00000013
FENCE, FENCE_TSO = 0x0FF0000F, 0x8330000F
CALL_REGISTER = 17
SWAP, LR, SC = 0b00001, 0b00010, 0b00011
ADD, XOR, AND, OR, MIN, MAX, MINU, MAXU = 0b00000, 0b00100, 0b01100, 0b01000, 0b10000, 0b10100, 0b11000, 0b11100
AMOS = (SWAP, ADD, XOR, AND, OR, MIN, MAX, MINU, MAXU)
RELEASE, ACQUIRE = 0b01, 0b10
DATA_AT, LOCKS_AT, LOCK_WORDS = 0x8000, 0x100000, 64
EXIT = [i_type(93, 0, 0, CALL_REGISTER, 0b0010011), ECALL]
