"""The instructions of a linked image, as objdump lists them: compressed ones by their long forms, calls as one jump, and
addresses of data as numbers."""

import os
import re
from dataclasses import dataclass, replace
from functools import lru_cache
from pathlib import Path

from bring_parts import ROOT

import assembly

# where linking places the code
TEXT = 0x10_0000
JUMPS = ("jal", *assembly.BRANCHES)
LINE = re.compile(r" *([0-9a-f]+):\t(\S+)(?:\t([^#<]*))?")
# the place of an instruction in a source, and of the calls that were made part of others
PLACE = re.compile(r"( *inlined by )?(\S.*?):([0-9]+)(?: \(discriminator [0-9]+\))?(?: \(.*\))?$")
# files that aren't the author's
OTHERS, LIBRARY = ("/usr/", f"{ROOT}/tools/", f"{ROOT}/examples/bare-metal/"), re.compile(r"/library/(?:core|alloc|std)/|/rustlib/")
# the operands of a call's two instructions
UPPER, LOWER = re.compile(r"(x[0-9]+),0x([0-9a-f]+)"), re.compile(r"(x[01]),(-?[0-9]+)\((x[0-9]+)\)")
# the low part of an address in an instruction's operands
LOW = re.compile(r"(.*?,)(-?[0-9]+)(\(x[0-9]+\))?")

# the instruction that each compressed one stands for, as the C extension's chapter of the manual has them and objdump writes them, by its
# operands: `{0}` and on, of which a place `n(reg)` is one
EXPANDED = {
    "lwsp": "lw {0},{1}", "swsp": "sw {0},{1}", "lw": "lw {0},{1}", "sw": "sw {0},{1}",
    "j": "jal x0,{0}", "jal": "jal x1,{0}", "jr": "jalr x0,0({0})", "jalr": "jalr x1,0({0})",
    "beqz": "beq {0},x0,{1}", "bnez": "bne {0},x0,{1}", "li": "addi {0},x0,{1}", "lui": "lui {0},{1}",
    "addi": "addi {0},{0},{1}", "addi16sp": "addi x2,x2,{1}", "addi4spn": "addi {0},x2,{2}", "slli": "slli {0},{0},{1}",
    "srli": "srli {0},{0},{1}", "srai": "srai {0},{0},{1}", "andi": "andi {0},{0},{1}", "mv": "add {0},x0,{1}",
    "add": "add {0},{0},{1}", "and": "and {0},{0},{1}", "or": "or {0},{0},{1}", "xor": "xor {0},{0},{1}",
    "sub": "sub {0},{0},{1}", "nop": "addi x0,x0,0", "ebreak": "ebreak",
}


@dataclass(frozen=True)
class Instruction:
    """An instruction, its address, and the line of a source that it comes from."""
    at: int
    name: str
    operands: str
    file: str
    line: int
    # the file with its folders, if it is one of the author's
    path: str = ""

    def where(self):
        return f"{self.file}:{self.line}" if self.file else f"at {self.at - TEXT:#x}"

    def target(self):
        """The address that a jump or branch names."""
        return int(self.operands.split(",")[-1], 16)

    def is_call(self):
        return self.name in ("jal", "jalr") and self.operands.startswith("x1,")

    def is_return(self):
        return self.name == "jalr" and self.operands in ("x0,0(x1)", "x0,x1,0")

    def is_end(self):
        """Whether nothing runs on after it."""
        return self.name in ("jal", "jalr") and self.operands.startswith("x0,") or self.name in ("ebreak", "unimp", "c.unimp")

    def goals(self):
        """Where it jumps to in the code."""
        return [self.target()] if self.name in JUMPS else []

    def registers_read(self):
        found = re.findall(r"\bx[0-9]+", self.operands)
        return found if self.name in (*assembly.STORES, *assembly.BRANCHES) else found[1:]

    def registers_written(self):
        found = re.findall(r"\bx[0-9]+", self.operands)
        return [] if self.name in (*assembly.STORES, *assembly.BRANCHES) else found[:1]


def listed(listing, sources=(), place_at=lambda address: None):
    """The instructions of a listing of objdump. The line of one is that of these sources or of another file of the author's
    if it comes from there, by whatever calls that were made part of others. `place_at` gives an address's own place where it is known better."""
    found, own, callers = [], ("", 0), []
    for text in listing.splitlines():
        if row := LINE.match(text):
            address = int(row[1], 16)
            own = place_at(address) or own
            path, line = next((place for place in [own, *callers] if Path(place[0]).name in sources or is_authors(place[0])), own)
            found.append(Instruction(address, row[2], (row[3] or "").strip(), Path(path).name, line, path if is_authors(path) else ""))
            callers = []
        elif place := PLACE.match(text):
            # objdump names the callers at each instruction, and its own place only where it is another
            there = place[2], int(place[3])
            own, callers = (own, [*callers, there]) if place[1] else (there, callers)
    return direct([named_fence(expanded(each)) for each in found])


def expanded(instruction):
    """The instruction, by the one of 32 bits that does the same if it is compressed and there is one."""
    form = EXPANDED.get(instruction.name[2:]) if instruction.name.startswith("c.") else None
    if form is None:
        return instruction
    try:
        name, _, operands = form.format(*instruction.operands.split(",")).partition(" ")
    except IndexError:
        return instruction  # a hint, which has fewer operands
    return replace(instruction, name=name, operands=operands)


def named_fence(instruction):
    """The instruction, by the fence that its word is if it is `pause`."""
    return replace(instruction, name="fence", operands="w,0") if instruction.name == "pause" else instruction


@lru_cache(maxsize=None)
def is_authors(path):
    """Whether a file is there and is no part of a system, of a compiler's library or of these tools."""
    path = os.path.realpath(path)
    return not path.startswith(OTHERS) and not LIBRARY.search(path) and os.path.isfile(path)


def direct(code):
    """The code with each pair of a call, `auipc` and `jalr`, as one `jal`."""
    made, skip = [], False
    for first, second in zip(code, [*code[1:], None]):
        upper = UPPER.fullmatch(first.operands) if first.name == "auipc" else None
        lower = LOWER.fullmatch(second.operands) if second and second.name == "jalr" else None
        if skip:
            skip = False
        elif upper and lower and upper[1] == lower[3] and lower[1] in ("x0", upper[1]):
            goal = (first.at + (int(upper[2], 16) << 12) + int(lower[2])) & 0xFFFF_FFFF
            made.append(replace(first, name="jal", operands=f"{lower[1]},{goal:x}"))
            skip = True
        else:
            made.append(first)
    return made


def absolute(code, relocations):
    """The code with the addresses of data that it computes from its own place as numbers: what `auipc` and a second
    instruction make, `lui` and that instruction make too. `relocations` has for an address the kind of the relocation there,
    and its symbol's value and name."""
    seconds = {}
    for each in code:
        kind, value, _ = relocations.get(each.at, ("", 0, ""))
        if kind.startswith("R_RISCV_PCREL_LO12"):
            seconds.setdefault(value, []).append(each)
    made = {each.at: each for each in code}
    for first in code:
        if first.name != "auipc" or first.at not in seconds:
            continue
        register, upper = first.operands.split(",")
        goal = first.at + (int(upper, 0) << 12) + int(LOW.fullmatch(seconds[first.at][0].operands)[2]) + 0x800
        made[first.at] = replace(first, name="lui", operands=f"{register},{goal >> 12 & 0xF_FFFF:#x}")
        for each in seconds[first.at]:
            low = LOW.sub(lambda part, rest=(goal & 0xFFF) - 0x800: f"{part[1]}{rest}{part[3] or ''}", each.operands, count=1)
            made[each.at] = replace(each, operands=low)
    return [made[each.at] for each in code]
