"""Whole texts of assembly: their words, or the first fault with its number and line. Statements are cut as in
assembly.py; here each refusal has its number."""

import re

import assembly
import words
from assembly import AMOS, BLANKS, NAME, NUMBER, REGISTERS
from faults import at_line

UNKNOWN_NAME, OPERAND, OUT_OF_RANGE, NO_LABEL, LABEL_TWICE, TOO_LONG = range(2, 8)
MOST = 4096
# the kinds of a mnemonic's operands: a register, `n(rs1)`, an AMO's place, a fence's set, a target by its reach,
# or a number by its least and its most
REGISTER, PLACE, AMO_PLACE, SET = "register", "place", "AMO's place", "set"
SIGNED = (-2048, 2047)
KINDS = {
    **{name: [REGISTER] * 3 for name in assembly.THREE_REGISTERS},
    **{name: [REGISTER, REGISTER, SIGNED] for name in assembly.IMMEDIATE},
    **{name: [REGISTER, REGISTER, (0, 31)] for name in assembly.SHIFT},
    **{name: [REGISTER, (0, 0xF_FFFF)] for name in assembly.UPPER},
    **{name: [REGISTER, PLACE] for name in assembly.LOADS + assembly.STORES},
    **{name: [REGISTER, REGISTER, 12] for name in assembly.BRANCHES},
    **{name: [REGISTER, REGISTER, AMO_PLACE] for name in AMOS},
    "jal": [REGISTER, 20], "fence": [SET, SET], "fence.tso": [], "ecall": [], "ebreak": [], "nop": [], "ret": [],
    "mv": [REGISTER] * 2, "not": [REGISTER] * 2, "neg": [REGISTER] * 2, "seqz": [REGISTER] * 2,
    "snez": [REGISTER] * 2, "beqz": [REGISTER, 12], "bnez": [REGISTER, 12], "j": [20],
    "li": [REGISTER, (-(1 << 31), (1 << 32) - 1)],
}


class Refused(Exception):
    """A statement's fault, by its number."""


def need(number, condition):
    if not condition:
        raise Refused(number)


def number(text, least, most, step=1):
    need(OPERAND, re.fullmatch(NUMBER, text))
    value = assembly.integer(text)
    need(OUT_OF_RANGE, least <= value <= most and value % step == 0)
    return value


def judge(kind, text):
    if kind == REGISTER:
        return need(UNKNOWN_NAME, text in REGISTERS)
    if kind == SET:
        return need(OPERAND, assembly.FENCE_SETS.fullmatch(text))
    if kind in (PLACE, AMO_PLACE):
        shape = re.fullmatch(r"([^(]*)\(([^)]*)\)", text, re.DOTALL)
        need(OPERAND, shape)
        offset, base = (part.strip(BLANKS) for part in shape.groups())
        need(UNKNOWN_NAME, base in REGISTERS)
        return number(offset, *(SIGNED if kind == PLACE else (0, 0))) if offset else 0
    if isinstance(kind, int):
        return re.fullmatch(NAME, text) or number(text, -1 << kind, (1 << kind) - 2, 2)
    return number(text, *kind)


def judge_operands(name, operands):
    need(UNKNOWN_NAME, name in KINDS or name == "jalr")
    if name == "fence" and not operands:
        return
    if name == "jalr":
        kinds = [REGISTER, PLACE] if len(operands) == 2 else [REGISTER, REGISTER, SIGNED]
    else:
        kinds = KINDS[name]
    for at, kind in enumerate(kinds):
        need(OPERAND, at < len(operands))
        judge(kind, operands[at])
    need(OPERAND, len(operands) == len(kinds))


def extra_of(name, operands):
    """What the machine doesn't need of an instruction, as words.py has it."""
    if name in AMOS:
        return sum(bit for letters, bit in ((".aq", 2), ("rl", 1)) if letters in name.partition(".w")[2])
    if name == "fence.tso":
        return words.TSO
    if name == "fence":
        return tuple(sum(1 << 3 - "iorw".index(letter) for letter in letters if letter != "0")
                     for letters in operands or ("iorw", "iorw"))
    return None


def statement(text, labels):
    """The label of a line, or None, and its instructions, each with what the machine doesn't need."""
    text = text.partition("#")[0].strip(BLANKS)
    label = None
    shape = re.match(f"({NAME}):", text)
    if shape:
        label, text = shape[1], text[shape.end():].strip(BLANKS)
        need(LABEL_TWICE, label not in labels)
    if not text:
        return label, []
    name, rest = re.fullmatch(r"([^ \t]*)(.*)", text, re.DOTALL).groups()
    rest = rest.strip(BLANKS)
    operands = [piece.strip(BLANKS) for piece in rest.split(",")] if rest else []
    judge_operands(name, operands)
    extra = extra_of(name, operands)
    return label, [(made, extra) for made in assembly.instruction(name, operands)]


def read(text):
    """The words of a text."""
    labels, code, passed = {}, [], None
    for line, content in enumerate(words.lines(text), 1):
        try:
            label, made = statement(content, labels)
        except Refused as refused:
            raise at_line(refused.args[0], line) from None
        if label is not None:
            labels[label] = len(code)
        code += [(line, *each) for each in made]
        if len(code) > MOST and passed is None:
            passed = line
    if passed is not None:
        raise at_line(TOO_LONG, passed)
    found = []
    for at, (line, instruction, extra) in enumerate(code):
        name = assembly.target_of(instruction)
        if name is not None and name not in labels:
            raise at_line(NO_LABEL, line)
        try:
            found.append(words.encoded(assembly.placed(instruction, at, labels), extra))
        except assembly.Refused:
            raise at_line(OUT_OF_RANGE, line) from None
    return found
