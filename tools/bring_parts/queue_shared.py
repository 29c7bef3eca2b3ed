"""What harts share in drawn runs: which of them store and load each place. Drawn runs leave words out: that nothing more is shared only the program says."""

from collections import defaultdict
from dataclasses import dataclass

from bring_parts import queue_runs

import machine

STOPS = {machine.OUT_OF_RANGE: "outside of the machine's memory of 16 KiB", machine.MISALIGNED: "which its bytes don't divide",
         machine.ILLEGAL: "an instruction that the machine doesn't have", machine.NO_CODE: "the end of its code", machine.BREAK: "an ebreak, as of a trap",
         machine.UNKNOWN_CALL: "an environment call that the machine doesn't have"}


@dataclass
class Stop:
    """Where a hart stops, in how many of the drawn runs, by which fault, and of an access its address, its bytes and whether it loads."""
    pc: int
    fault: int
    at: int
    width: int
    loads: bool
    runs: int = 0

    def is_outside(self):
        return self.fault == machine.OUT_OF_RANGE

    def why(self):
        """What the instruction does that stops the hart."""
        why = STOPS.get(self.fault, f"stop {self.fault}")
        return f"it {'loads from' if self.loads else 'stores to'} {self.at:#x}, {why}" if self.at is not None else why


def accessed(code, hart):
    """The address of the access that a hart is at, by its state, and the instruction's name; or None and a name."""
    pc, registers = hart[:2]
    name, *parts = code[pc // 4] if pc // 4 < len(code) else ("",)
    if name not in machine.WIDTHS:
        return None, name
    base, offset = (parts[2], 0) if name in machine.AMOS else parts[1:]
    return registers[base] + offset & machine.MASK, name


def stop_of(code, hart, fault):
    """Where and by what a hart stops, by its state before."""
    at, name = accessed(code, hart)
    return Stop(hart[0], fault, at, machine.WIDTHS.get(name), name in machine.LOADS)


class Shared:
    """Of each place the harts that store and load it, each with a pc, what each stored, and which by an AMO; and where harts stop."""

    def __init__(self, test):
        self.codes, self.harts = test.codes, len(test.codes)
        self.storers, self.loaders, self.values, self.exchanged = defaultdict(dict), defaultdict(dict), defaultdict(set), defaultdict(set)
        self.widths, self.stops = {}, {}
        for _, entry, before in queue_runs.drawn(test):
            if entry.kind == "stopped":
                self.stops.setdefault(entry.hart, stop_of(self.codes[entry.hart], before, int(entry.text.split()[-1]))).runs += 1
            if entry.at is not None:
                self.look(entry)

    def look(self, entry):
        self.widths[entry.at] = max(entry.width, self.widths.get(entry.at, 0))
        if entry.is_store():
            self.storers[entry.at].setdefault(entry.hart, entry.pc)
            self.values[entry.at, entry.hart].add(entry.value)
        if entry.is_load():
            self.loaders[entry.at].setdefault(entry.hart, entry.pc)
        if entry.kind == "amo":
            self.exchanged[entry.at].add(entry.hart)

    def stored_by(self, hart):
        return [at for at, who in self.storers.items() if hart in who]

    def loaded_by(self, hart):
        return [at for at, who in self.loaders.items() if hart in who]

    def who(self, at):
        """The harts that store a place, and the others that load it."""
        storers = frozenset(self.storers.get(at, ()))
        return storers, frozenset(self.loaders.get(at, ())) - storers

    def places(self, queues=()):
        """The places that one hart stores and another stores or loads, outside of these queues."""
        return [at for at in sorted(self.storers) if len(frozenset().union(*self.who(at))) > 1 and not any(queue.meets(at, 1) for queue in queues)]

    def unread(self):
        """The places that one hart stores and no hart loads."""
        return [at for at in sorted(self.storers) if len(self.storers[at]) == 1 and not self.loaders.get(at)]

    def is_flag(self, at):
        """Whether one hart stores only 0 to a place, and another one only other numbers."""
        values = [self.values[at, hart] for hart in self.storers[at]]
        return len(values) == 2 and {0} in values and not all(0 in each for each in values)

    def is_exchanged(self, at):
        """Whether AMOs of two harts store there."""
        return len(self.exchanged.get(at, ())) > 1

    def stored_beside(self, at, hart):
        """The further places to which the instruction stores by which a hart stores a place."""
        pc = self.storers[at][hart]
        return [other for other, who in self.storers.items() if other != at and who.get(hart) == pc]
