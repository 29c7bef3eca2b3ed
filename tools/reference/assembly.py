"""One statement of assembly, as a cell of a litmus table holds it.

An instruction is a tuple: its name, then what it needs, with register numbers and numbers. A jump or
branch to a label has the label's name in the target's place until `placed` puts the distance there.
Pseudoinstructions are read as what they stand for."""

import re

from digits import of_digits

BLANKS = " \t"
NAME = r"[A-Za-z_.][A-Za-z0-9_.]*"
NUMBER = r"-?(?:0x[0-9A-Fa-f]+|[0-9]+)"

NAMES = ["zero", "ra", "sp", "gp", "tp", "t0", "t1", "t2", "s0", "s1",
         *(f"a{i}" for i in range(8)), *(f"s{i}" for i in range(2, 12)),
         *(f"t{i}" for i in range(3, 7))]
REGISTERS = {**{f"x{i}": i for i in range(32)}, **{name: i for i, name in enumerate(NAMES)}, "fp": 8}

THREE_REGISTERS = "add sub sll slt sltu xor srl sra or and".split()
IMMEDIATE = "addi slti sltiu xori ori andi".split()
SHIFT = "slli srli srai".split()
UPPER = "lui auipc".split()
LOADS = "lb lh lw lbu lhu".split()
STORES = "sb sh sw".split()
BRANCHES = "beq bne blt bge bltu bgeu".split()
AMOS = {f"amo{name}.w{suffix}": f"amo{name}"
        for name in "add swap xor or and min max minu maxu".split()
        for suffix in ("", ".aq", ".rl", ".aqrl", ".aq.rl")}
FENCE_SETS = re.compile(r"0|(?=.)i?o?r?w?")
FULL_SETS = ("fence", True)


class Refused(Exception):
    """The assembler refuses the statement."""


def need(condition):
    if not condition:
        raise Refused


def register(text):
    need(text in REGISTERS)
    return REGISTERS[text]


def number(text, least, most, step=1):
    need(re.fullmatch(NUMBER, text))
    value = integer(text)
    need(least <= value <= most and value % step == 0)
    return value


def integer(text):
    """The number of a text of the shape NUMBER."""
    sign, digits = (-1, text[1:]) if text.startswith("-") else (1, text)
    return sign * (of_digits(digits[2:], 16) if digits.startswith("0x") else of_digits(digits))


def address(text, least=-2048, most=2047):
    """The register and the number of `n(rs1)`, of which n may be left out."""
    shape = re.fullmatch(r"([^()]*)\(([^()]*)\)", text)
    need(shape)
    offset, base = (part.strip(BLANKS) for part in shape.groups())
    return register(base), number(offset, least, most) if offset else 0


def target(text, reach):
    """A label's name, or a distance in bytes."""
    return text if re.fullmatch(NAME, text) else number(text, -reach, reach - 2, 2)


def fence(before, after):
    need(FENCE_SETS.fullmatch(before) and FENCE_SETS.fullmatch(after))
    return ("fence", "w" in before and "r" in after)


def constant(rd, value):
    """The instructions of `li`: the value as a signed word, whole or in two parts."""
    value = (value + 0x8000_0000) % 0x1_0000_0000 - 0x8000_0000
    if -2048 <= value <= 2047:
        return [("addi", rd, 0, value)]
    low = (value + 2048) % 4096 - 2048
    high = ("lui", rd, (value - low) // 4096 % 0x10_0000)
    return [high] if low == 0 else [high, ("addi", rd, rd, low)]


def arity(operands, count):
    need(len(operands) == count)
    return operands


def pseudoinstruction(name, operands):
    """What a pseudoinstruction stands for, or None where the name is none."""
    count = {"nop": 0, "ret": 0, "mv": 2, "not": 2, "neg": 2, "seqz": 2, "snez": 2, "beqz": 2,
             "bnez": 2, "j": 1, "li": 2}.get(name)
    if count is None:
        return None
    arity(operands, count)
    if name == "nop":
        return [("addi", 0, 0, 0)]
    if name == "ret":
        return [("jalr", 0, 1, 0)]
    if name == "j":
        return [("jal", 0, target(operands[0], 1 << 20))]
    first = register(operands[0])
    if name == "li":
        return constant(first, number(operands[1], -(1 << 31), (1 << 32) - 1))
    if name in ("beqz", "bnez"):
        return [(name[:3], first, 0, target(operands[1], 1 << 12))]
    second = register(operands[1])
    return [{"mv": ("addi", first, second, 0), "not": ("xori", first, second, -1),
             "neg": ("sub", first, 0, second), "seqz": ("sltiu", first, second, 1),
             "snez": ("sltu", first, 0, second)}[name]]


def instruction(name, operands):
    """The instructions of a statement, which are two for some `li`."""
    meant = pseudoinstruction(name, operands)
    if meant is not None:
        return meant
    if name in THREE_REGISTERS:
        return [(name, *map(register, arity(operands, 3)))]
    if name in IMMEDIATE or name in SHIFT:
        rd, rs1, n = arity(operands, 3)
        least, most = (-2048, 2047) if name in IMMEDIATE else (0, 31)
        return [(name, register(rd), register(rs1), number(n, least, most))]
    if name in UPPER:
        rd, n = arity(operands, 2)
        return [(name, register(rd), number(n, 0, 0xF_FFFF))]
    if name in LOADS or name in STORES:
        value, place = arity(operands, 2)
        return [(name, register(value), *address(place))]
    if name in BRANCHES:
        rs1, rs2, place = arity(operands, 3)
        return [(name, register(rs1), register(rs2), target(place, 1 << 12))]
    if name == "jal":
        rd, place = arity(operands, 2)
        return [(name, register(rd), target(place, 1 << 20))]
    if name == "jalr" and len(operands) == 2:
        return [(name, register(operands[0]), *address(operands[1]))]
    if name == "jalr":
        rd, rs1, n = arity(operands, 3)
        return [(name, register(rd), register(rs1), number(n, -2048, 2047))]
    if name in AMOS:
        rd, rs2, place = arity(operands, 3)
        return [(AMOS[name], register(rd), register(rs2), address(place, 0, 0)[0])]
    if name == "fence":
        return [fence(*arity(operands, 2)) if operands else FULL_SETS]
    if name in ("fence.tso", "ecall", "ebreak"):
        arity(operands, 0)
        return [("fence", False) if name == "fence.tso" else (name,)]
    raise Refused


def statement(text):
    """The label of a statement, or None, and its instructions."""
    text = text.partition("#")[0].strip(BLANKS)
    label = None
    shape = re.match(f"({NAME}):", text)
    if shape:
        label, text = shape[1], text[shape.end():].strip(BLANKS)
    if not text:
        return label, []
    name, operands = re.fullmatch(r"([^ \t]*)(.*)", text, re.DOTALL).groups()
    operands = operands.strip(BLANKS)
    pieces = [piece.strip(BLANKS) for piece in operands.split(",")] if operands else []
    return label, instruction(name, pieces)


def target_of(instruction):
    """The name of the label that an instruction jumps to, or None."""
    last = instruction[-1]
    return last if len(instruction) > 1 and isinstance(last, str) else None


def placed(instruction, at, labels):
    """The instruction at this word of its hart with its label's distance in bytes."""
    name = target_of(instruction)
    if name is None:
        return instruction
    need(name in labels)
    distance = 4 * (labels[name] - at)
    reach = 1 << (20 if instruction[0] == "jal" else 12)
    need(-reach <= distance < reach)
    return (*instruction[:-1], distance)
