"""Registers that `lwu` loads. In 64 bits they hold a number without a sign; the word that stands for it here may have one. What may
tell the two apart is refused."""

import re
from dataclasses import dataclass

from bring_parts import Refused, statements

import assembly

# instructions that read the low 32 bits alone, and loads that leave no sign
LOW, WITHOUT_SIGN = {*statements.SHORTER, "sext.w"} - {"lwu"}, ("lwu", "lhu", "lbu")
ATOMICS = set(assembly.AMOS.values())
# of numbers without a sign these compare the same in 32 bits and in 64
COMPARED = ("beq", "bne", "bltu", "bgeu", "sltu")


@dataclass(frozen=True)
class Step:
    """An instruction, the statement that its author wrote, and its line."""
    made: tuple
    statement: str
    line: int

    @property
    def name(self):
        return self.statement.split()[0]

    def written(self):
        """The register that it writes, or None."""
        is_none = self.made[0] in (*assembly.STORES, *assembly.BRANCHES, "fence", "ecall", "ebreak")
        return None if is_none else self.made[1]

    def read(self):
        """The registers that it reads."""
        name = self.made[0]
        if name in assembly.STORES or name in assembly.BRANCHES:
            return self.made[1:3]
        if name in assembly.THREE_REGISTERS or name in ATOMICS:
            return self.made[2:4]
        return self.made[2:3] if name in (*assembly.IMMEDIATE, *assembly.SHIFT, *assembly.LOADS, "jalr") else ()

    def base(self):
        """The register of the address that it writes to, or None."""
        return self.made[2] if self.made[0] in assembly.STORES else self.made[3] if self.made[0] in ATOMICS else None

    def leaves_no_sign(self):
        """Whether what it writes is the same number in 64 bits as the word here without a sign."""
        if self.name == "li":
            return "-" not in self.statement
        return self.name in WITHOUT_SIGN or self.made[0] in ("addi", "ori", "xori") and self.made[2] == 0 <= self.made[3]

    def is_same(self, loaded, plain):
        """Whether it does the same in 32 bits as in 64. `loaded` are the registers that `lwu` loads, `plain` those that never have
        a sign."""
        name = self.made[0]
        if self.name in LOW or self.base() is not None:
            return self.base() not in loaded
        if name in ("xor", "sub") and self.made[2] == self.made[3]:
            return True
        if name in ("andi", "sltiu"):
            return self.made[3] >= 0 and (name == "andi" or self.made[2] in plain)
        return name in COMPARED and {*self.read()} <= plain


def steps_of(cells, column, code):
    """A hart's instructions. The cells are as their author wrote them."""
    at = 0
    for cell, (line, _, _, words) in zip(cells, column):
        statement = re.sub(rf"^[ \t]*({assembly.NAME}:)?", "", cell.partition("#")[0]).strip(assembly.BLANKS)
        yield from (Step(made, statement, line) for made in code[at:at + words])
        at += words


def check(given, test, opened, ending):
    """Refuses a text in which a register that `lwu` loads may give another result. `given` has each hart's cells as their author wrote
    them, `test` what is made of them, and `opened` what registers open as."""
    for hart, cells in enumerate(given):
        steps = list(steps_of(cells, test.columns[hart], test.codes[hart]))
        loaded = {step.written() for step in steps if step.name == "lwu"} - {0}
        signed = {step.written() for step in steps if not step.leaves_no_sign()}
        signed |= {register for (of, register), value in opened.items() if of == hart and value >> 31}
        plain = {0, *range(32)} - signed
        for step in steps:
            for register in loaded & {*step.read()}:
                if not step.is_same(loaded, plain):
                    raise Refused(f"line {step.line}: `{step.statement}`: x{register} holds what `lwu` loads, and its upper 32 bits may count here")
        check_asked(hart, loaded, plain, ending)


def check_asked(hart, loaded, plain, ending):
    """Refuses a condition that gives such a register a number that isn't the same in 64 bits."""
    for each in ending.equations():
        of, _, name = each.left.partition(":")
        register = assembly.REGISTERS.get(name) if of == str(hart) else None
        if register in loaded and not 0 <= number_of(each.value) < 1 << (32 if register in plain else 31):
            raise Refused(f"condition: {each.left}={each.value}, and {each.left} holds what `lwu` loads, which has no sign in 64 bits")


def number_of(value):
    """The number of a value; a location's address is none of 64 bits."""
    return assembly.integer(value) if re.fullmatch(assembly.NUMBER, value) else -1
