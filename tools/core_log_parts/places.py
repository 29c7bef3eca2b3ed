"""Where a log of other tools has a test's code and data: the machine has each hart's code at 0, and memory at 0."""

from dataclasses import dataclass

from .log import LogError, Retired

MEMORY = 16384
LOAD, STORE, AMO = 0x03, 0x23, 0x2F
# bytes of an access, by the low two bits of funct3
WIDTHS = {0: 1, 1: 2, 2: 4}


@dataclass(frozen=True)
class Places:
    """The address of each hart's code, one for all or one for each, and that of the word 0 of memory."""
    code: tuple = (0,)
    data: int = 0

    def pc(self, hart, address, opening):
        """The pc of the test's code, or None where the address is of other code. The end of a hart's code is none."""
        base = self.code[hart] if hart < len(self.code) else self.code[-1]
        place = address - base
        return place if 0 <= place < 4 * len(opening.codes[hart]) else None

    def address(self, address, line):
        """The address in the machine's memory."""
        place = address - self.data
        if not 0 <= place < MEMORY:
            raise LogError(f"line {line}: the address {address:x} is outside of memory, which begins at {self.data:x}: --data")
        return place


def access(hart, cycle, pc, insn, rd, rd_value, address, written, line):
    """A load, a store or an AMO of a log that has no masks: its word's lanes are those that the instruction says, and what
    it read is what it wrote to its register, or None where that is x0."""
    opcode, width = insn & 0x7F, WIDTHS.get(insn >> 12 & 3)
    if opcode not in (LOAD, STORE, AMO) or width is None:
        raise LogError(f"line {line}: {insn:08x} at pc {pc:x} has an access to memory, and is no load, store or AMO of ztso's")
    offset = address % 4
    lanes = (1 << width) - 1 << offset
    if lanes > 0xF or offset % width:
        raise LogError(f"line {line}: the address {address:x} isn't aligned, and no hart stopped")
    read = None if not rd else (rd_value & (1 << 8 * width) - 1) << 8 * offset
    stored = (written or 0) << 8 * offset
    return Retired(cycle, hart, pc, insn, rd, rd_value, address - offset, lanes * (opcode != STORE), lanes * (opcode != LOAD),
                   0 if opcode == STORE else read, stored, cycle, line)
