"""Words that any value may be loaded from, as of a device: a further hart stores each number to them, one after the other and for ever. Between two loads it
may have made any number of its stores, so that every sequence of loaded values is that of a run, and what holds in every run holds whatever a device answers.
A device's address, outside of the machine's memory, becomes one of a page that is free there: all code that makes it is seen to use it as an address alone."""

import re
from dataclasses import dataclass, replace

from bring_parts import Refused
from bring_parts.arguments import PASSED
from bring_parts.columns import Column
from bring_parts.memory import NUMBER, WORDS, number

import machine

SHAPE = re.compile(r"(.*?)(?::([0-9]{1,4}))?")
PAGE, PAGES = 1 << 12, 4 * WORDS >> 12
# how many inputs there may be, each with a register of its own, and how many bytes one has at most
MOST, WIDEST, WORD = 16, 1024, 4
BASE = 8
PLACE, EXCHANGE = re.compile(r"(x[0-9]+),(-?[0-9]+)\((x[0-9]+)\)"), re.compile(r"x[0-9]+,(x[0-9]+),\((x[0-9]+)\)")
# each number follows by 5 n + 1013, modulo 2^32, from the one before: since 4 divides 5 - 1 and 1013 is odd, 2^32 steps pass through all of them
COUNTS = ["slli x6,x5,2", "add x5,x5,x6", "addi x5,x5,1013"]
NOTE = " # any value"
# where ways with another address in a register join, and the registers in which a function returns
MIXED, RETURNED = "mixed", ("x10", "x11")
AS_GLOBAL = "make the register a volatile global, and name that by --input"


@dataclass(frozen=True)
class Input:
    """An input as it is named, its bytes, the address that code has for it, and where it lies in memory."""
    text: str
    width: int
    address: int
    at: int

    def has(self, address, width):
        return self.address <= address and address + width <= self.address + self.width

    def parts(self):
        """Its bytes in stores: of each the first byte and how many it has."""
        at, end = self.at, self.at + self.width
        while at < end:
            width = next(each for each in (4, 2, 1) if at % each == 0 and at + each <= end)
            yield at, width
            at += width


def placed(texts, words):
    """The inputs that are named. Those outside of memory get pages of it from the end on, those that follow one another such as do."""
    if len(texts) > MOST:
        raise Refused(f"{len(texts)} inputs: at most {MOST} are taken")
    named = [read(text, words) for text in texts]
    pages = sorted({at // PAGE for at, width in named for at in (at, at + width - 1) if at >= machine.MEMORY})
    there = {page: PAGES - len(pages) + place for place, page in enumerate(pages)}
    found = []
    for text, (at, width) in zip(texts, named):
        found.append(Input(text, width, at, at if at < machine.MEMORY else there[at // PAGE] * PAGE + at % PAGE))
    return Inputs(found, there)


def read(text, words):
    """The address and the bytes of an input."""
    shape = SHAPE.fullmatch(text)
    name, width = shape[1], int(shape[2] or words.sizes.get(words.shorter(shape[1]), WORD))
    at = number(name) if NUMBER.fullmatch(name) else words.address(name)
    if not 1 <= width <= WIDEST or at + width > 1 << 32:
        raise Refused(f"--input {text}: an input has 1 to {WIDEST} bytes, as in --input 0x10000000:8")
    if at < machine.MEMORY and at + width > 4 * len(words.values):
        raise Refused(f"--input {text}: it lies past all data")
    return at, width


class Inputs:
    """The inputs, and for pages outside of memory the pages in their place."""

    def __init__(self, found, pages):
        self.found, self.pages = found, pages
        self.used = set()
        # an address is made by the page before it or after it, whichever is nearer
        self.made = {**{page + 1: place + 1 for page, place in pages.items()}, **pages}

    def ranges(self):
        return [(each.at, each.width) for each in self.found]

    def room(self):
        """Where the bytes end that data and stacks may have."""
        return min(self.pages.values(), default=PAGES) * PAGE

    def name(self, words):
        """Gives their names to the bytes in memory's pages, and says which bytes all of them have."""
        words.inputs = self.ranges()
        for each in self.found:
            if each.address != each.at:
                name = f"{each.address:#x}"
                words.begins[name] = words.starts[name] = each.at
                words.sizes[name] = each.width

    def moved(self, functions, relocations, returns=True):
        """A hart's functions with the addresses in memory; `returns` says whether the first one may return one."""
        if not self.pages:
            return functions
        moves = Walk(self, functions, relocations, returns).moves()
        return {name: [replace(each, operands=moves.get(each.at, each.operands)) for each in code] for name, code in functions.items()}

    def check_used(self):
        """Refuses a device's address that no code makes."""
        if unused := [each.text for each in self.found if each.address != each.at and each not in self.used]:
            raise Refused(f"--input {unused[0]}: no code of a hart makes this address, which may be loaded from a variable: {AS_GLOBAL}")

    def column(self, hart):
        """The hart that stores each number to them, and what its registers open as."""
        bases = {each: BASE + place for place, each in enumerate(self.found)}
        names = {4: "sw", 2: "sh", 1: "sb"}
        stores = [f"{names[width]} x5,{at - each.at}(x{bases[each]})" for each in self.found for at, width in each.parts()]
        first, *rest = [*COUNTS, *stores, "jal x0,L0"]
        return (Column([each + NOTE for each in (f"L0: {first}", *rest)], 0, None),
                " ".join(f"{hart}:x{register}={each.at};" for each, register in bases.items()))


def accessed(each):
    """Of a load, store or AMO the register with its address, the offset, and the register that it stores, or None; None of another instruction."""
    if shape := EXCHANGE.fullmatch(each.operands) if each.name.startswith("amo") else None:
        return shape[2], 0, shape[1]
    shape = PLACE.fullmatch(each.operands) if each.name in (*machine.LOADS, *machine.STORES) else None
    return shape and (shape[3], int(shape[2]), shape[1] if each.name in machine.STORES else None)


class Walk:
    """A hart's code on all its ways, with the registers that have an address made of a device's page."""

    def __init__(self, inputs, functions, relocations, returns):
        self.inputs, self.relocations, self.returns = inputs, relocations, returns
        self.own = next(iter(functions))
        self.after = {first.at: second for code in functions.values() for first, second in zip(code, code[1:])}
        self.code = {each.at: each for code in functions.values() for each in code}
        self.owners = {each.at: name for name, code in functions.items() for each in code}
        # of functions those that leave such an address where they return something, and to which others they jump
        self.leaves, self.jumps = set(), {name: {name} for name in functions}
        self.known, self.lacks = {}, {}

    def moves(self):
        """For the instructions that make a device's page their operands with the page in its place."""
        before = None
        while before != (found := (len(self.leaves), sum(map(len, self.jumps.values())))):
            before, self.known = found, {}
            self.walk()
        if self.lacks:
            where, does = next(iter(self.lacks.values()))
            raise Refused(f"{where}: it {does}, which no --input names: {' '.join(f'--input {at:#x}:{width}' for at, width in sorted(self.lacks))}")
        return {at: f"{each.operands.partition(',')[0]},{self.inputs.made[self.page(each)]:#x}" for at, each in self.code.items()
                if at in self.known and self.page(each) is not None}

    def walk(self):
        todo = []
        self.join(next(each for each in self.code.values() if self.owners[each.at] == self.own), {}, todo)
        while todo:
            each = todo.pop()
            for following, known in self.step(each, dict(self.known[each.at])):
                self.join(following, known, todo)

    def may_leave(self, name):
        """Whether a function, or one that it jumps to, leaves an address where it returns something."""
        found, todo = set(), [name]
        while todo:
            each = todo.pop()
            if each not in found:
                found.add(each)
                todo += self.jumps[each]
        return bool(found & self.leaves)

    def join(self, each, known, todo):
        before = self.known.get(each.at)
        joined = known if before is None else {register: known.get(register) if known.get(register) == before.get(register) else MIXED
                                               for register in {**known, **before}}
        if joined != before:
            self.known[each.at] = joined
            todo.append(each)

    def page(self, each):
        """The device's page that an instruction makes, or None."""
        if each.name != "lui" or each.at in self.relocations:
            return None
        page = int(each.operands.partition(",")[2], 0)
        return page if page in self.inputs.made else None

    def step(self, each, known):
        """What follows an instruction, with the registers then."""
        read, made = [register for register in each.registers_read() if register in known], self.page(each)
        made = made and made * PAGE
        if access := accessed(each):
            base, offset, stored = access
            self.check_access(each, known.get(base), offset)
            read = [register for register in read if register != base or register == stored]
        elif each.name == "addi" and read:
            made, read = self.one(each, known[read[0]]) + int(each.operands.split(",")[2]), []
        elif each.name == "add" and "x0" in each.registers_read() and read:
            made, read = self.one(each, known[read[0]]), []
        elif each.is_return() and (left := [register for register in RETURNED if register in known]):
            self.leaves.add(self.owners[each.at])
            read = left if self.returns and self.owners[each.at] == self.own else []
        if read:
            raise self.refused(each, known[read[0]])
        for register in each.registers_written():
            known.pop(register, None)
            if made is not None:
                known[register] = made
        yield from self.following(each, known)

    def one(self, each, address):
        """An address that is the same on all ways."""
        if address == MIXED:
            raise self.refused(each, address)
        return address

    def following(self, each, known):
        goals = [self.code[goal] for goal in each.goals() if goal in self.code]
        if each.is_call():
            # a function is given what is passed, and leaves what it must, and where it returns something maybe such an address
            yield from ((goal, {register: at for register, at in known.items() if register in PASSED}) for goal in goals)
            known = {register: at for register, at in known.items() if register not in PASSED}
            known |= {register: MIXED for register in RETURNED for goal in goals if self.may_leave(self.owners[goal.at])}
        else:
            for goal in goals:
                self.jumps[self.owners[each.at]].add(self.owners[goal.at])
                yield goal, known
        if not each.is_end() and each.at in self.after:
            yield self.after[each.at], known

    def check_access(self, each, address, offset):
        """Notes an access to a device's byte that no input has."""
        if address is None:
            return
        at, width = self.one(each, address) + offset, machine.WIDTHS.get(each.name, WORD)
        found = {one for one in self.inputs.found if one.has(at, width)}
        self.inputs.used |= found
        if not found:
            self.lacks.setdefault((at, width), (each.where(), f"{'loads from' if each.name in machine.LOADS else 'stores to'} {at:#x}"))

    def refused(self, each, address):
        what = "an address that isn't the same on each way" if address == MIXED else f"the address {address:#x}"
        return Refused(f"{each.where()}: {what} is more than used for accesses here, so --input can't move it: {AS_GLOBAL}")
