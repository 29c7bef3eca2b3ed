"""Says of a run what is wrong with it: the chart of a refused record's front, and the first register or pc that
isn't the machine's, which a record can't say."""

import tempfile

from core_log_parts import record
from core_log_parts.log import Drained

from . import judge

# the opcodes of STORE, BRANCH, MISC-MEM and SYSTEM, whose instructions write no register
WITHOUT_RD = (0x23, 0x63, 0x0F, 0x73)


def refused(asked, path, events, line):
    """The line of a refused record with its event's pc, and the chart of what led to it."""
    event = judge.event_of(line)
    if event is None:
        return line
    step = events[event].step
    place = "" if isinstance(step, Drained) else f" (pc {step.pc})"
    picture, _ = judge.ask(asked.program, "chart", path, record.text(events[:event]), asked.buffer)
    rows = picture.partition("\n\n")[2].partition("\n\n")[0]
    return "\n".join([f"{line}{place}", rows, *register(asked, path, events[:event + 1])]).rstrip()


def register(asked, path, events):
    """A line for the first event before which the core's pc, or after which the register that it writes, isn't the
    machine's; none where there is no such event. The debugger prints the hart before and after each act."""
    commands = []
    for each in events:
        commands += ["s"] if each.letter == "l" else [f"r {each.hart}", "s", f"r {each.hart}"]
    with tempfile.NamedTemporaryFile("w", suffix=".record") as file:
        file.write(record.text(events))
        file.flush()
        words = ["debug", path, file.name, "--buffer", asked.buffer]
        answers = blocks(judge.call(asked.program, words, "\n".join(commands) + "\n")[0])
    for number, each in enumerate(events):
        if each.letter == "l":
            next(answers)
            continue
        before, _, after = next(answers), next(answers), next(answers)
        wrong = different(each.step, before, after)
        if wrong:
            return [f"event {number} (pc {each.step.pc}, {each.outcome()}): {wrong}"]
    return []


def blocks(output):
    """The debugger's answers: an outcome, or a hart's line with those of its registers."""
    block = []
    for line in output.splitlines():
        if block and not line.startswith("x"):
            yield block
            block = []
        block.append(line)
    yield block


def written_register(insn):
    """The number of the register that an instruction writes, or 0."""
    return 0 if insn & 0x7F in WITHOUT_RD else insn >> 7 & 31


def different(step, before, after):
    """What a step of the log has otherwise than the machine, or nothing."""
    pc = int(before[0].split()[-3])
    if step.pc != pc:
        return f"the core is at pc {step.pc}, the machine at {pc}"
    rd = getattr(step, "rd", 0)
    if rd and rd != (meant := written_register(step.insn)):
        return f"the core writes x{rd}, the instruction {f'x{meant}' if meant else 'no register'}"
    value = int(dict(line.split(" = ") for line in after[1:]).get(f"x{rd}", 0))
    if rd and step.rd_value != value:
        return f"the core writes {step.rd_value} to x{rd}, the machine {value}"
    return ""
