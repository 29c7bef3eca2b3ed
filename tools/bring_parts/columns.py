"""What a hart's functions are as the cells of its column: its own function, and after it those that it calls."""

import re
from dataclasses import dataclass

from bring_parts import Refused

import assembly

JUMPS = ("jal", *assembly.BRANCHES)
TAKEN = {*assembly.THREE_REGISTERS, *assembly.IMMEDIATE, *assembly.SHIFT, *assembly.LOADS, *assembly.STORES,
         *assembly.BRANCHES, *assembly.AMOS, "lui", "jal", "fence", "fence.tso", "ecall", "ebreak"}
COMPUTED = ("a jump to a computed place, as a call through a pointer, a virtual function and a table of a switch are: call "
            "functions by their names")
REASONS = [(r"(lr|sc)\.w.*", "ztso has no LR and SC, which compare-and-exchange and atomic bytes need: exchange, or add to, a word"),
           (r"jalr", COMPUTED), (r"auipc", "code that depends on where it lies: compile with -fno-pic -mcmodel=medlow"),
           (r"amo.*\.d.*|l[dw]u|ld|sd", "ztso has words of 32 bits"),
           (r"amo.*", "ztso has the word AMOs of the A extension alone"),
           (r"fence\.i", "ztso has no fence.i"),
           (r"(mul|div|rem)\w*", "the M extension: compile with -march=rv32ia"),
           (r"f.*\.[sdhq](\..*)?|fl[wdh]|fs[wdh]|f[a-z]*csr|c\.f.*", "floating point: compile with -march=rv32ia -mabi=ilp32"),
           (r"wfi|mret|sret|uret|sfence.*", "an instruction of privileged code, which ztso hasn't: leave it out"),
           (r"csr.*|rd(cycle|time|instret)h?", "a control register: a hart's number, for one, is a parameter that `init` sets"),
           (r"(c\.)?unimp", "a place that the compiler takes for unreachable"),
           (r".*", "not in RV32I and the word AMOs: compile with -march=rv32ia")]
FENCES = ("all", "full", "none")


@dataclass
class Column:
    """A hart's cells, the bytes of its stack, and where its code ends if called functions return there."""
    cells: list
    stack: int
    returns: int


def reason_of(name):
    """Why an instruction isn't taken."""
    return next(reason for form, reason in REASONS if re.fullmatch(form, name))


def column(functions, fences="all", note=None, has_stack=False):
    """The column of a hart by its functions, of which the first is its own. `note` gives the comment beside an instruction,
    if there is to be one; `has_stack` says that the stack pointer has a value."""
    name = next(iter(functions))
    code = [(each, instruction) for each in functions for instruction in functions[each]]
    on_stack = [instruction for _, instruction in code if re.search(r"\bx2\b", instruction.operands)]
    frames = sum(frame_of(instruction) for _, instruction in code)
    has_stack |= any("x2" in each.registers_written() and "x2" not in each.registers_read() for each in on_stack)
    if on_stack and not frames and not has_stack:
        raise Refused(f"{on_stack[0].where()}: {name} takes arguments from the stack: a hart has at most 8 parameters")
    if circle := first_circle(functions):
        where = functions[circle][0].where()
        raise Refused(f"{where}: {circle} calls itself, or is called by what it calls: no stack is large enough")
    cells, size = cells_of(name, code, fences, note)
    return Column(cells, 0 if has_stack or not on_stack else (frames + 15) // 16 * 16, 4 * size if len(functions) > 1 else None)


def frame_of(instruction):
    """The bytes by which an instruction makes the stack longer."""
    frame = re.fullmatch(r"x2,x2,-([0-9]+)", instruction.operands) if instruction.name == "addi" else None
    return int(frame[1]) if frame else 0


def first_circle(functions):
    """A function that calls itself, by others or not, if there is one."""
    owners = {instruction.at: name for name, code in functions.items() for instruction in code}
    calls, jumps = ({name: {owners[goal] for each in code if each.is_call() or not only_calls for goal in each.goals() if goal in owners}
                     for name, code in functions.items()} for only_calls in (True, False))
    for name in functions:
        reached, todo = set(), list(calls[name])
        while todo:
            other = todo.pop()
            if other not in reached:
                reached.add(other)
                todo += calls[other] | jumps[other] - {other}
        if name in reached:
            return name
    return None


def cells_of(own, code, fences, note):
    """The cells, and how many instructions they have. A return of the hart's own function leads past the code, where
    the hart ends."""
    goals, statements = {}, []
    for at, (name, instruction) in enumerate(code):
        # where a fence is left out, the next statement stands
        goals[instruction.at] = len(statements)
        is_last = at + 1 == len(code)
        if is_left_out(instruction, fences) or instruction.is_return() and name == own and is_last:
            continue
        if instruction.is_return():
            statements.append((instruction, *(("jal x0,", -1) if name == own else ("jalr x0,0(x1)", None))))
        elif instruction.name in JUMPS:
            front = instruction.operands.rpartition(",")[0]
            statements.append((instruction, f"{instruction.name} {front},", instruction.target()))
        else:
            statements.append((instruction, statement(instruction), None))
    goals[-1] = len(statements)
    return labelled(statements, goals, note), len(statements)


def labelled(statements, goals, note):
    """The cells of statements, each an instruction, its text, and the address that stands at its end or None."""
    for instruction, _, goal in statements:
        if goal not in goals and goal is not None:
            raise Refused(f"{instruction.where()}: it jumps to where no instruction begins")
    used = {goals[goal] for _, _, goal in statements if goal is not None}
    labels = {at: f"L{at}" if at < len(statements) else "end" for at in used}
    cells = []
    for at, (instruction, text, goal) in enumerate(statements):
        label = f"{labels[at]}: " if at in labels else ""
        comment = f" # {note(instruction)}" if note else ""
        cells.append(label + text + (labels[goals[goal]] if goal is not None else "") + comment)
    return cells + ["end:"] * (len(statements) in labels)


def statement(instruction):
    """The statement of an instruction that is no jump."""
    name, operands = instruction.name, instruction.operands
    shown = f"{instruction.where()}: `{f'{name} {operands}'.strip()}`"
    if re.search(r"\bx[34]\b", operands):
        raise Refused(f"{shown}: a thread-local variable: make it a parameter, or a global object for each hart")
    if name not in TAKEN:
        raise Refused(f"{shown}: {reason_of(name)}")
    if name == "lui":
        rd, number = operands.split(",")
        operands = f"{rd},{int(number, 0)}"
    if name == "fence":
        operands = operands.replace("unknown", "0")
    return f"{name} {operands}".strip()


def is_full(instruction):
    """Whether a fence keeps a store before a load; under Ztso all else is kept without a fence."""
    before, _, after = instruction.operands.partition(",")
    return instruction.name == "fence" and "w" in before and "r" in after


def is_left_out(instruction, fences):
    if instruction.name not in ("fence", "fence.tso") or fences == "all":
        return False
    return fences == "none" or not is_full(instruction)
