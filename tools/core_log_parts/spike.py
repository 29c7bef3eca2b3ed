"""The commit log that Spike writes (`--log-commits`), as a run of a core: it has no landings, and no value of a load to
x0. Written by the format of Spike's own source; see docs/cores.md for what was tried."""

import re

from .log import LogError, Retired, Run, Trapped
from .places import access

COMMIT = re.compile(r"core +([0-9]{1,3}): ([0-3]) 0x([0-9a-f]{1,16}) \(0x([0-9a-f]{1,8})\)(.*)$")
EXCEPTION = re.compile(r"core +([0-9]{1,3}): exception (\w{1,60}), epc 0x([0-9a-f]{1,16})")
REGISTER = re.compile(r" x *([0-9]{1,2}) +0x([0-9a-f]{1,16})")
MEMORY = re.compile(r" mem 0x([0-9a-f]{1,16})(?: 0x([0-9a-f]{1,16}))?")
CAUSES = {"trap_instruction_address_misaligned": 0, "trap_instruction_access_fault": 1, "trap_illegal_instruction": 2,
          "trap_breakpoint": 3, "trap_load_address_misaligned": 4, "trap_load_access_fault": 5,
          "trap_store_address_misaligned": 6, "trap_store_access_fault": 7, "trap_user_ecall": 11,
          "trap_supervisor_ecall": 11, "trap_machine_ecall": 11}
# an environment call, the cause of its exception, and what ends a hart
ECALL, CALL_CAUSE, CALL_REGISTER, EXIT = 0x73, 11, 17, 93


def runs(lines, opening, places):
    """The one run of a log. Code that isn't the test's is left out, such as what brought a hart there."""
    run, number = Run(0, 1, has_drains=False), 0
    calls = {hart: value for (hart, register), value in opening.registers.items() if register == CALL_REGISTER}
    for number, line in enumerate(lines, 1):
        step = step_of(line.rstrip("\r\n"), number, opening, places)
        if isinstance(step, Trapped) and step.cause == CALL_CAUSE and calls.get(step.hart) == EXIT:
            step = Retired(number, step.hart, step.pc, ECALL, 0, 0, 0, 0, 0, 0, 0, number, number)
        elif isinstance(step, Retired) and step.rd == CALL_REGISTER:
            calls[step.hart] = step.rd_value
        run.steps += [step] if step else []
    run.cycles = number
    return [run] if run.steps else []


def hart_of(text, number, opening):
    hart = int(text)
    if hart >= len(opening.codes):
        raise LogError(f"line {number}: the log has a hart {hart}, and the test has {len(opening.codes)} harts")
    return hart


def step_of(line, number, opening, places):
    """The step of a line, or None where it is of other code or says nothing of an instruction."""
    if shape := EXCEPTION.match(line):
        hart = hart_of(shape[1], number, opening)
        pc = places.pc(hart, int(shape[3], 16), opening)
        if pc is None:
            return None
        if shape[2] not in CAUSES:
            raise LogError(f"line {number}: no hart of the machine stops for {shape[2]}")
        return Trapped(number, hart, pc, 0, CAUSES[shape[2]], number)
    shape = COMMIT.match(line)
    if not shape:
        return None
    hart = hart_of(shape[1], number, opening)
    pc, insn = places.pc(hart, int(shape[3], 16), opening), int(shape[4], 16)
    if pc is None:
        return None
    register, accesses = REGISTER.search(shape[5]), MEMORY.findall(shape[5])
    rd, value = (int(register[1]), int(register[2], 16) & 0xFFFF_FFFF) if register else (0, 0)
    if not accesses:
        return Retired(number, hart, pc, insn, rd, value, 0, 0, 0, 0, 0, number, number)
    address = places.address(int(accesses[0][0], 16), number)
    written = next((int(data, 16) for _, data in accesses if data), None)
    return access(hart, number, pc, insn, rd, value, address, written, number)
