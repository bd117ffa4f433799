"""The instructions: a word's, what one of two registers or of a register and a number gives, and the text of each."""

from collections import namedtuple

WORD = 1 << 32

# rd, rs1 and rs2 are numbers of registers; imm is the immediate as a number below 2^32, of a shift its amount.
Inst = namedtuple("Inst", "name rd rs1 rs2 imm")

BRANCHES = {0: "beq", 1: "bne", 4: "blt", 5: "bge", 6: "bltu", 7: "bgeu"}
LOADS = {0: "lb", 1: "lh", 2: "lw", 4: "lbu", 5: "lhu"}
STORES = {0: "sb", 1: "sh", 2: "sw"}
IMMEDIATES = {0: "addi", 2: "slti", 3: "sltiu", 4: "xori", 6: "ori", 7: "andi"}
SHIFTS = {(1, 0x00): "slli", (5, 0x00): "srli", (5, 0x20): "srai"}
REGISTERS = {
    (0, 0x00): "add", (1, 0x00): "sll", (2, 0x00): "slt", (3, 0x00): "sltu",
    (4, 0x00): "xor", (5, 0x00): "srl", (6, 0x00): "or", (7, 0x00): "and",
    (0, 0x20): "sub", (5, 0x20): "sra",
    (0, 0x01): "mul", (1, 0x01): "mulh", (2, 0x01): "mulhsu", (3, 0x01): "mulhu",
    (4, 0x01): "div", (5, 0x01): "divu", (6, 0x01): "rem", (7, 0x01): "remu",
}  # fmt: skip
# Bytes that a load or a store moves.
SIZES = {"lb": 1, "lbu": 1, "lh": 2, "lhu": 2, "lw": 4, "sb": 1, "sh": 2, "sw": 4}


def signed(number, bits=32):
    """A number of so many bits read as two's complement."""
    return number - (1 << bits) if number >> (bits - 1) & 1 else number


def extended(number, bits):
    """The sign-extended immediate, modulo 2^32."""
    return signed(number, bits) % WORD


def decode(word):
    """The instruction of a word, or None."""
    opcode, f3, f7 = word & 0x7F, word >> 12 & 7, word >> 25
    rd, rs1, rs2 = word >> 7 & 31, word >> 15 & 31, word >> 20 & 31
    if opcode in (0x37, 0x17):
        return Inst("lui" if opcode == 0x37 else "auipc", rd, 0, 0, word & 0xFFFFF000)
    if opcode == 0x6F:
        offset = (word >> 31) << 20 | word & 0xFF000 | (word >> 20 & 1) << 11 | (word >> 21 & 0x3FF) << 1
        return Inst("jal", rd, 0, 0, extended(offset, 21))
    if opcode == 0x67 and f3 == 0:
        return Inst("jalr", rd, rs1, 0, extended(word >> 20, 12))
    if opcode == 0x63 and f3 in BRANCHES:
        offset = (word >> 31) << 12 | (word >> 7 & 1) << 11 | (word >> 25 & 0x3F) << 5 | (word >> 8 & 15) << 1
        return Inst(BRANCHES[f3], 0, rs1, rs2, extended(offset, 13))
    if opcode == 0x03 and f3 in LOADS:
        return Inst(LOADS[f3], rd, rs1, 0, extended(word >> 20, 12))
    if opcode == 0x23 and f3 in STORES:
        return Inst(STORES[f3], 0, rs1, rs2, extended(f7 << 5 | rd, 12))
    if opcode == 0x13 and f3 in IMMEDIATES:
        return Inst(IMMEDIATES[f3], rd, rs1, 0, extended(word >> 20, 12))
    if opcode == 0x13 and (f3, f7) in SHIFTS:
        return Inst(SHIFTS[f3, f7], rd, rs1, 0, rs2)
    if opcode == 0x33 and (f3, f7) in REGISTERS:
        return Inst(REGISTERS[f3, f7], rd, rs1, rs2, 0)
    if opcode == 0x0F and f3 == 0:
        return Inst("fence", 0, 0, 0, (word >> 15) * 32 + rd)
    return {0x73: Inst("ecall", 0, 0, 0, 0), 0x100073: Inst("ebreak", 0, 0, 0, 0)}.get(word)


def text(inst):
    """The statement of the assembler for an instruction."""
    name, rd, rs1, rs2, imm = inst
    if name in ("lui", "auipc"):
        return f"{name} x{rd}, {imm // 4096}"
    if name == "jal":
        return f"jal x{rd}, {signed(imm)}"
    if name == "jalr" or name in LOADS.values():
        return f"{name} x{rd}, {signed(imm)}(x{rs1})"
    if name in BRANCHES.values():
        return f"{name} x{rs1}, x{rs2}, {signed(imm)}"
    if name in STORES.values():
        return f"{name} x{rs2}, {signed(imm)}(x{rs1})"
    if name in IMMEDIATES.values() or name in SHIFTS.values():
        return f"{name} x{rd}, x{rs1}, {signed(imm)}"
    if name in REGISTERS.values():
        return f"{name} x{rd}, x{rs1}, x{rs2}"
    return f"fence {imm}" if name == "fence" else name


def is_taken(name, a, b):
    """Whether a branch is taken at these values of its registers."""
    return {
        "beq": a == b,
        "bne": a != b,
        "blt": signed(a) < signed(b),
        "bge": signed(a) >= signed(b),
        "bltu": a < b,
        "bgeu": a >= b,
    }[name]


def quotient(a, b):
    """The quotient rounded toward zero."""
    return abs(a) // abs(b) * (1 if (a < 0) == (b < 0) else -1)


def result(name, a, b):
    """What an instruction of two values gives, modulo 2^32; of an immediate the second is that."""
    p, q = signed(a), signed(b)
    given = {
        "add": lambda: a + b, "sub": lambda: a - b,
        "sll": lambda: a << (b & 31), "srl": lambda: a >> (b & 31), "sra": lambda: p >> (b & 31),
        "slt": lambda: int(p < q), "sltu": lambda: int(a < b),
        "xor": lambda: a ^ b, "or": lambda: a | b, "and": lambda: a & b,
        "mul": lambda: a * b, "mulh": lambda: p * q >> 32, "mulhsu": lambda: p * b >> 32, "mulhu": lambda: a * b >> 32,
        "div": lambda: quotient(p, q) if b else -1, "divu": lambda: a // b if b else -1,
        "rem": lambda: p - q * quotient(p, q) if b else a, "remu": lambda: a % b if b else a,
    }  # fmt: skip
    of_immediate = {"addi": "add", "slti": "slt", "sltiu": "sltu", "xori": "xor", "ori": "or", "andi": "and",
                    "slli": "sll", "srli": "srl", "srai": "sra"}  # fmt: skip
    return given[of_immediate.get(name, name)]() % WORD
