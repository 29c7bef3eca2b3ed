"""Words of instructions, by the manual's tables: the word of an instruction, its text, and the instruction of
a word. An instruction is the tuple of assembly.py with what the machine doesn't need: the two bits of an AMO's
ordering, or a fence's sets and mode."""

import re

import assembly

# name: opcode, funct3 and funct7
REGISTER = {name: (0x33, *numbers) for name, numbers in {
    "add": (0, 0), "sub": (0, 0x20), "sll": (1, 0), "slt": (2, 0), "sltu": (3, 0), "xor": (4, 0), "srl": (5, 0),
    "sra": (5, 0x20), "or": (6, 0), "and": (7, 0)}.items()}
SHIFT = {"slli": (0x13, 1, 0), "srli": (0x13, 5, 0), "srai": (0x13, 5, 0x20)}
# name: opcode and funct3
IMMEDIATE = {"addi": (0x13, 0), "slti": (0x13, 2), "sltiu": (0x13, 3), "xori": (0x13, 4), "ori": (0x13, 6),
             "andi": (0x13, 7), "jalr": (0x67, 0), "lb": (3, 0), "lh": (3, 1), "lw": (3, 2), "lbu": (3, 4),
             "lhu": (3, 5)}
STORES = {"sb": (0x23, 0), "sh": (0x23, 1), "sw": (0x23, 2)}
BRANCHES = {"beq": (0x63, 0), "bne": (0x63, 1), "blt": (0x63, 4), "bge": (0x63, 5), "bltu": (0x63, 6),
            "bgeu": (0x63, 7)}
UPPER = {"lui": 0x37, "auipc": 0x17}
AMOS = {"amoadd": 0, "amoswap": 1, "amoxor": 4, "amoor": 8, "amoand": 12, "amomin": 16, "amomax": 20,
        "amominu": 24, "amomaxu": 28}
CALLS = {"ecall": 0x73, "ebreak": 0x100073}
TSO = "tso"
ORDERINGS = ["", ".rl", ".aq", ".aqrl"]


def bits(word, high, low):
    return word >> low & (1 << high - low + 1) - 1


def signed(value, width):
    return value - (1 << width) if value >> width - 1 else value


def branch_bits(n):
    return bits(n, 12, 12) << 31 | bits(n, 10, 5) << 25 | bits(n, 4, 1) << 8 | bits(n, 11, 11) << 7


def jump_bits(n):
    return bits(n, 20, 20) << 31 | bits(n, 10, 1) << 21 | bits(n, 11, 11) << 20 | bits(n, 19, 12) << 12


def encoded(instruction, extra=None):
    """The plain word of an instruction."""
    name, *parts = instruction
    if name in CALLS:
        return CALLS[name]
    if name == "fence":
        before, after, mode = (3, 3, 8) if extra == TSO else (*extra, 0)
        return mode << 28 | before << 24 | after << 20 | 0xF
    if name in UPPER:
        return parts[1] << 12 | parts[0] << 7 | UPPER[name]
    if name == "jal":
        return jump_bits(parts[1] & 0x1F_FFFF) | parts[0] << 7 | 0x6F
    first, second, third = parts
    if name in BRANCHES:
        opcode, funct3 = BRANCHES[name]
        return branch_bits(third & 0x1FFF) | second << 20 | first << 15 | funct3 << 12 | opcode
    if name in STORES:
        opcode, funct3 = STORES[name]
        n = third & 0xFFF
        return n >> 5 << 25 | first << 20 | second << 15 | funct3 << 12 | (n & 31) << 7 | opcode
    if name in AMOS:
        return AMOS[name] << 27 | extra << 25 | second << 20 | third << 15 | 2 << 12 | first << 7 | 0x2F
    if name in IMMEDIATE:
        opcode, funct3 = IMMEDIATE[name]
        return (third & 0xFFF) << 20 | second << 15 | funct3 << 12 | first << 7 | opcode
    opcode, funct3, funct7 = REGISTER.get(name) or SHIFT[name]
    return funct7 << 25 | third << 20 | second << 15 | funct3 << 12 | first << 7 | opcode


def decoded(word):
    """The instruction of a word with what the machine doesn't need, or None."""
    for name, whole in CALLS.items():
        if word == whole:
            return (name,), None
    rd, rs1, rs2 = bits(word, 11, 7), bits(word, 19, 15), bits(word, 24, 20)
    funct3, funct7, opcode = bits(word, 14, 12), bits(word, 31, 25), word & 0x7F
    n = signed(word >> 20, 12)
    for name, numbers in UPPER.items():
        if numbers == opcode:
            return (name, rd, word >> 12), None
    if opcode == 0x6F:
        n = bits(word, 31, 31) << 20 | bits(word, 19, 12) << 12 | bits(word, 20, 20) << 11 | bits(word, 30, 21) << 1
        return ("jal", rd, signed(n, 21)), None
    for name, numbers in BRANCHES.items():
        if numbers == (opcode, funct3):
            n = bits(word, 31, 31) << 12 | bits(word, 7, 7) << 11 | bits(word, 30, 25) << 5 | bits(word, 11, 8) << 1
            return (name, rs1, rs2, signed(n, 13)), None
    for name, numbers in STORES.items():
        if numbers == (opcode, funct3):
            return (name, rs2, rs1, signed(funct7 << 5 | rd, 12)), None
    for name, numbers in IMMEDIATE.items():
        if numbers == (opcode, funct3):
            return (name, rd, rs1, n), None
    for name, numbers in (REGISTER | SHIFT).items():
        if numbers == (opcode, funct3, funct7):
            return (name, rd, rs1, rs2), None
    for name, numbers in AMOS.items():
        if (opcode, funct3, word >> 27) == (0x2F, 2, numbers):
            return (name, rd, rs2, rs1), bits(word, 26, 25)
    if (opcode, funct3) == (0xF, 0):
        before, after = bits(word, 27, 24), bits(word, 23, 20)
        if (word >> 28, before, after) == (8, 3, 3):
            return ("fence", False), TSO
        return ("fence", before & 1 == 1 and after & 2 == 2), (before, after)
    return None


def letters(chosen):
    return "".join(letter for i, letter in enumerate("iorw") if chosen >> 3 - i & 1) or "0"


def text(instruction, extra):
    """An instruction as `dis` writes it."""
    name, *parts = instruction
    if name in CALLS:
        return name
    if name == "fence":
        return "fence.tso" if extra == TSO else f"fence {letters(extra[0])},{letters(extra[1])}"
    if name in UPPER or name == "jal":
        return f"{name} x{parts[0]},{parts[1]}"
    first, second, third = parts
    if name in AMOS:
        return f"{name}.w{ORDERINGS[extra]} x{first},x{second},(x{third})"
    if name == "jalr" or name in assembly.LOADS or name in STORES:
        return f"{name} x{first},{third}(x{second})"
    last = f"x{third}" if name in REGISTER else third
    return f"{name} x{first},x{second},{last}"


def read(content):
    """The words of a text for `dis`, or the number of the first line that holds anything else."""
    found = []
    for number, line in enumerate(lines(content), 1):
        for piece in re.findall(r"[^ \t]+", line):
            if not re.fullmatch("[0-9A-Fa-f]{8}", piece):
                return number
            found.append(int(piece, 16))
    return found


def lines(content):
    """The lines of a text, without their ends. A last LF begins none."""
    *whole, last = content.split("\n")
    return [line.removesuffix("\r") for line in whole] + ([last] if last else [])
