"""The queues of docs/functions.md in C: the functions that a file calls, and where its queues lie."""

import re
from dataclasses import dataclass

from bring_parts import ROOT, Refused
from bring_parts.fields import Part
from bring_parts.images import NAMED as DATA
from bring_parts.memory import Placed

import assembly

# the folder of queue.h, and the functions that it declares
HEADERS = ROOT / "examples/bare-metal"
FUNCTIONS = HEADERS / "functions.S"
# where the parts of a block lie, as queue.h has them; the slots have a name for each kind of queue
TAIL, SLOTS = 64, 128
KINDS = {"slots": ("Lamport's", "lamport_try_send", "lamport_try_receive"),
         "cached_slots": ("Lamport's with a cached tail", "cached_try_send", "lamport_try_receive"),
         "words_or_0": ("FastForward's", "fastforward_try_send", "fastforward_try_receive")}
ROLES = ("sends", "receives")
NONE = ("no queue is named: where the blocks of the calls lie isn't plain from the code. Make each a global object, or pass `&queue` where "
        "the macro is")
# what a call may change: ra, t0 to t6, a0 to a7
CHANGED = {f"x{number}" for number in (1, *range(5, 8), *range(10, 18), *range(28, 32))}
BLOCK, BYTES = "x10", "x12"


@dataclass(frozen=True)
class Call:
    """A call of a function, with the block and the bytes of its slots, or None where that isn't plain from the code."""
    name: str
    block: int
    size: int


@dataclass(frozen=True)
class Queue:
    """A queue: its name, its kind, its block's address, and how many slots it has."""
    name: str
    slots: str
    block: int
    count: int

    def line(self):
        return f"queue {self.name}: {KINDS[self.slots][0]}, block at {self.block}, {self.count} slots"

    def functions(self):
        """The functions that send and that receive."""
        return KINDS[self.slots][1:]


def names():
    """The functions that functions.S defines."""
    return set(re.findall(r"^\s*\.globl\s+(\w+)", FUNCTIONS.read_text(), re.MULTILINE))


def lines(found, calls):
    """A line for each queue: where its block lies, and which harts use it. `calls` are those of each hart's code."""
    for queue in found:
        line = queue.line()
        for role, function in zip(ROLES, queue.functions()):
            alone = sum(function in each.functions() for each in found) == 1
            line += user(role, function, queue.block, alone, calls)
        yield line


def among(objects, calls):
    """The queues: those that an object is or has as parts, and those that lie where a call passes a block."""
    found = [queue for each in objects for queue in declared(each)]
    known = {queue.block for queue in found}
    passed = [call for each in calls for call in each if call.block and call.size and call.block not in known]
    for block in sorted({call.block for call in passed if call.name in names()}):
        used = {call.name for call in passed if call.block == block}
        slots = next((slots for slots, (_, send, _) in KINDS.items() if send in used), None) \
            or next(slots for slots, (_, _, receive) in KINDS.items() if receive in used)
        inside = next((each for each in objects if each.at <= block < each.at + each.size), None)
        offset = block - inside.at if inside else 0
        name = f"in {inside.name}" + f" + {offset}" * bool(offset) if inside else f"at {block}"
        found.append(Queue(name, slots, block, next(call.size for call in passed if call.block == block) // 4))
    return found


def declared(placed):
    """The queues that an object is or has as parts."""
    places = {part.name: placed.at + part.at for part in placed.parts}
    for head in [name for name in places if name.endswith(".head")]:
        name = head.removesuffix(".head")
        for slots in KINDS:
            if [places.get(f"{name}{part}", 0) - places[head] for part in (".tail", f".{slots}[0]")] == [TAIL, SLOTS]:
                count = sum(1 for part in places if re.fullmatch(rf"{re.escape(name)}\.{slots}\[[0-9]+\]", part))
                yield Queue(name, slots, places[head], count)


def fixed(objects, found):
    """The blocks of queues that lie at a fixed address, where no object is."""
    for queue in found:
        size = SLOTS + 4 * queue.count
        if any(each.at <= queue.block < each.at + each.size for each in objects):
            continue
        over = next((each for each in objects if queue.block < each.at + each.size and each.at < queue.block + size), None)
        if over or queue.block + size > DATA:
            raise Refused(f"the queue at {queue.block:#x} lies " + (f"over {over.name}, which this text has at {over.at}" if over else
                          f"beyond the {DATA} bytes that ztso has names for") + ": make it a global object, or choose another address")
        name = f"q{queue.block}"
        yield Placed(queue.block, size, name, [Part(0, 4, f"{name}.head"), Part(TAIL, 4, f"{name}.tail"),
                                               *(Part(SLOTS + 4 * at, 4, f"{name}.{queue.slots}[{at}]") for at in range(queue.count))])


def user(role, function, address, alone, calls):
    """The hart that has this role for the queue there. If more than one has it, or a call of its function may be for this
    queue or for another one, nothing is said."""
    blocks = [{call.block for call in each if call.name == function} for each in calls]
    harts = [hart for hart, each in enumerate(blocks) if address in each or alone and None in each]
    known = len(harts) == 1 and (alone or not any(None in each for each in blocks))
    return f", hart {harts[0]} {role}" if known else ""


def calls_of(functions):
    """The calls and jumps to other functions in the code of these."""
    starts = {code[0].at: name for name, code in functions.items()}
    return {Call(starts[instruction.target()], registers.get(BLOCK), registers.get(BYTES))
            for code in functions.values() for instruction, registers in with_registers(code)
            if instruction.name == "jal" and instruction.target() in starts}


def with_registers(code):
    """The instructions of a function that can be reached, each with what is known of the registers before it: those that
    have one value, by whatever way the instruction was reached."""
    places = {instruction.at: at for at, instruction in enumerate(code)}
    known, todo = {0: {}}, [0]
    while todo:
        at = todo.pop()
        after = registers_after(code[at], known[at])
        for follower in followers(code, places, at):
            before = known.get(follower, after)
            joined = dict(before.items() & after.items())
            if known.get(follower) != joined:
                known[follower] = joined
                todo.append(follower)
    return [(code[at], registers) for at, registers in sorted(known.items())]


def followers(code, places, at):
    """The places in the code to which an instruction leads; a call leads to what follows it."""
    instruction = code[at]
    is_call = instruction.name == "jal" and instruction.operands.startswith("x1,")
    goals = []
    if instruction.name == "jal" and not is_call or instruction.name in assembly.BRANCHES:
        goals = [places[instruction.target()]] if instruction.target() in places else []
    falls = is_call or instruction.name not in ("jal", "jalr")
    return goals + [at + 1] * (falls and at + 1 < len(code))


def registers_after(instruction, registers):
    """What is known of the registers after an instruction: `lui`, `addi` and copies are followed."""
    name, operands = instruction.name, instruction.operands.split(",")
    if name in ("jal", "jalr"):
        return {each: value for each, value in registers.items() if each not in CHANGED}
    if name in assembly.STORES or name in assembly.BRANCHES:
        return registers
    value = None
    if name == "lui":
        value = int(operands[1], 0) << 12
    elif name == "addi":
        value = 0 if operands[1] == "x0" else registers.get(operands[1])
        value = None if value is None else value + int(operands[2], 0) & 0xFFFF_FFFF
    others = {each: known for each, known in registers.items() if each != operands[0]}
    return others if value is None else {**others, operands[0]: value}
