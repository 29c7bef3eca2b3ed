"""Why a hart of which `tools/certify` found nothing isn't covered, as far as its code tells: what the tools' own code does, a tag that is tested by some
of its bits, and a length that is read from a slot. What a hart loads from slots is taken from drawn runs; nothing is claimed of others."""

from collections import defaultdict

from bring_parts import queue_runs
from bring_parts.queue_said import Uncovered, values_of
from bring_parts.queue_words import support_function

import assembly
import machine
from words import text as text_of_instruction

DIVIDES = ("`%` and `/` by what is no power of two are loops here if the quotient is above 1, and of the result nothing is known: count as in "
           "`i + 1 == N ? 0 : i + 1`, with index=wrapping, or take N slots that are a power of two")
COPIES = "a copy by a loop, as memcpy's is here, and that of a large struct, isn't covered: assign the record's fields one by one"
LENGTHS = ("hart {hart} takes a length from a slot, {place}: records of different lengths aren't covered, since of what a slot holds nothing is known: let "
           "all have one length")
BITS = ("hart {hart} decides by some bits of a tag, as `status & OWN` does, at {place}: with tells=zero and tells=number the whole tag tells; where some of "
        "its bits do, say tells=bit:MASK")
# the functions of the tools' own code that divide, and those that copy
DIVISION, COPYING = {"divided", "size_of", "__udivsi3", "__umodsi3", "__divsi3", "__modsi3"}, {"memcpy", "memmove", "memset"}
# where a copy's count is
COUNT = 12
# instructions that take bits of a number, and branches by its sign
MASKS, SUMS, SIGNS = ("andi", "and", "slli", "srli", "srai"), ("add", "sub"), ("blt", "bge")
WHOLE = {-1, 0xFF, 0xFFFF}


def of_uncovered(answer, notes, queues=(), test=None, is_broken=False):
    """What helps where the search found nothing of a hart, or, of a broken queue, says that it is another kind than the described one."""
    refused = [(each.hart, None if each.pc is None else each.pc // 4) for each in values_of(answer.splitlines()) if isinstance(each, Uncovered)]
    seen = Accesses(test, queues) if test and refused else None
    for hart, at in refused:
        of_hart = [support_function(note) for note in notes[hart]] if hart < len(notes) else []
        function = of_hart[at] if at is not None and at < len(of_hart) else None
        found = list(filter(None, (why(hart, seen, of_hart) for why in (of_bits, of_lengths)))) if seen else []
        if found or is_broken or at is None:
            yield from found
        elif function not in COPYING and DIVISION & set(of_hart):
            yield DIVIDES
        elif COPYING & set(of_hart):
            yield COPIES


class Accesses:
    """Where in their code the harts load from slots, from tags, and store indices, by drawn runs."""

    def __init__(self, test, queues):
        self.codes, self.queues, self.slots, self.tags, self.indices = test.codes, queues, defaultdict(set), defaultdict(set), defaultdict(set)
        for _, entry, _ in queue_runs.drawn(test):
            if entry.at is not None:
                self.look(entry)

    def look(self, entry):
        """Takes notice of an access."""
        at, place = entry.pc // 4, entry.at
        for queue in self.queues:
            if entry.is_load() and queue.meets_slots(place, 1):
                self.slots[entry.hart].add(at)
            if entry.is_load() and queue.has_tags and queue.meets_tags(place, 1):
                if 0 <= (place - queue.tags) % queue.tag_stride - queue.tag_offset < queue.tag_width:
                    self.tags[entry.hart].add(at)
            if entry.is_store() and not queue.has_tags and place in (queue.head, queue.tail):
                self.indices[entry.hart].add(at)

    def place(self, hart, at):
        return f"pc {4 * at}, {text_of_instruction(self.codes[hart][at], 0)}"


def target(instruction):
    """The register that an instruction writes, or None."""
    return None if instruction[0] in (*assembly.STORES, *assembly.BRANCHES, "fence", "ecall", "ebreak") else instruction[1]


def sources(instruction):
    """The registers from whose numbers an instruction computes one."""
    name, *parts = instruction
    if name in assembly.LOADS or name in ("lui", "auipc", "jal", "jalr", "fence", "ecall", "ebreak") or name.startswith("amo"):
        return ()
    return (parts[1],) if name in machine.IMMEDIATES else tuple(parts[1:3])


def nexts(code, at):
    """The places to which an instruction may lead; after a call to what follows it."""
    name = code[at][0]
    is_call = name == "jal" and code[at][1] != 0
    to = [at + code[at][-1] // 4] if name in assembly.BRANCHES or name == "jal" and not is_call else []
    return [each for each in to + [at + 1] * (is_call or name not in ("jal", "jalr")) if 0 <= each < len(code)]


def followed(code, begins, step):
    """Of each place the registers that may hold there what was loaded at one of these, by `step`: what an instruction makes of a register's mark."""
    marks, todo = {}, []

    def join(at, more):
        old = marks.get(at, {})
        new = {register: max(mark, old.get(register, 0)) for register, mark in {**old, **more}.items()}
        if new != old:
            marks[at] = new
            todo.append(at)
    for at in begins:
        for to in nexts(code, at):
            join(to, {code[at][1]: 1} if code[at][1] else {})
    while todo:
        at = todo.pop()
        instruction, known = code[at], marks[at]
        written = target(instruction)
        after = {register: mark for register, mark in known.items() if register != written}
        made = step(instruction, known)
        if written and at in begins:
            made = 1
        for to in nexts(code, at):
            join(to, {**after, written: made} if written and made else after)
    return marks


def most(instruction, known):
    return max((known.get(register, 0) for register in sources(instruction)), default=0)


def masked(instruction, known):
    """1 of what was loaded whole, 2 of some bits of it. Of a difference neither bits nor the sign are the tag's."""
    mark = most(instruction, known) if instruction[0] not in SUMS else 0
    return 2 if mark and instruction[0] in MASKS and instruction[-1] not in WHOLE else mark


def of_bits(hart, seen, _):
    """A line where a hart decides by some bits of a tag, or None."""
    if any(queue.has_tags and queue.has_bits() for queue in seen.queues):
        return None
    code, marks = seen.codes[hart], followed(seen.codes[hart], seen.tags[hart], masked)
    for at in sorted(marks):
        name, *parts = code[at]
        if name in assembly.BRANCHES:
            found = [marks[at].get(register, 0) for register in parts[:2]]
            if max(found) == 2 or name in SIGNS and 1 in found and 0 in parts[:2]:
                return BITS.format(hart=hart, place=seen.place(hart, at))
    return None


def of_lengths(hart, seen, of_hart):
    """A line where what a hart loaded from a slot ends a loop, is a copy's count or moves an index, or None."""
    if not any(queue.receiver == hart and not queue.has_tags for queue in seen.queues):
        return None
    code, marks = seen.codes[hart], followed(seen.codes[hart], seen.slots[hart], most)
    for at in sorted(marks):
        name, *parts = code[at]
        if name in assembly.BRANCHES and parts[2] < 0:
            begin = at + parts[2] // 4
            written = {target(each) for each in code[max(begin, 0):at]}
            is_length = any(marks[at].get(register) and register not in written for register in parts[:2])
        elif name == "jal":
            goal = at + parts[1] // 4
            is_length = marks[at].get(COUNT) and 0 <= goal < len(of_hart) and of_hart[goal] in COPYING
        else:
            is_length = at in seen.indices[hart] and marks[at].get(parts[1 if name.startswith("amo") else 0])
        if is_length:
            return LENGTHS.format(hart=hart, place=seen.place(hart, at))
    return None
