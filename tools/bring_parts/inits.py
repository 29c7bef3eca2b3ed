"""What init functions leave: each runs to its end on one hart of the second implementation's machine, before the harts start, and what it stores is what the
words open as."""

from bring_parts import Refused, arguments, columns, functions
from bring_parts.queue_shared import accessed, stop_of

import litmus
import machine

# a function that has made so many instructions is thought never to end
MOST, BUFFER = 100_000, 4
# bytes below this are those of a null pointer
NULL = 4


def run(linked, names, words, inputs):
    """Runs the init functions, one after the other, and opens the words so. They may load no byte of inputs, of which nothing is known."""
    inits = [Init(linked, name, words, inputs) for name in names]
    if not inits:
        return
    opening = memory = machine.Machine(inits[0].test, BUFFER).opening[1]
    for init in inits:
        memory = init.run(memory)
    before, after = dict(opening), dict(memory)
    for place in range(len(words.values)):
        if before.get(4 * place, 0) != after.get(4 * place, 0):
            words.values[place] = after.get(4 * place, 0)


class Init:
    """An init function by its name: the text of one hart that runs it, where each instruction comes from, and the stack that it has above all data."""

    def __init__(self, linked, name, words, inputs):
        symbol = linked.image.function(name)
        if symbol is None:
            raise Refused(f"there is no function {name} for --init: a static one may be made part of others, so let other files see it")
        self.name = symbol.plain.partition("(")[0]
        self.inputs = inputs.ranges()
        code = functions.of_hart(linked.image, symbol, [symbol, *(hart.symbol for hart in linked.harts)])
        code = inputs.moved(code, linked.image.relocations, returns=False)
        self.check_alone(symbol, linked.information, code)
        column = columns.column(code, note=lambda instruction: instruction.where())
        self.data = 4 * len(words.values)
        self.top = self.data + column.stack
        if self.top > inputs.room():
            raise Refused(f"{self.name} needs {column.stack} bytes of stack beside {self.data} bytes of data: there are {inputs.room()}")
        opens = [f"0:x2={self.top};", *[f"0:x1={column.returns};"] * (column.returns is not None)]
        rows = [f" {cell} ;" for cell in ("P0", *column.cells)]
        self.test = litmus.read("\n".join(["RISCV init", "{", *words.items(), *opens, "}", *rows, "exists (null=0)", ""]))
        self.notes = [cell.partition("#")[2].strip() for _, cell, _, number in self.test.columns[0] for _ in range(number)]

    def check_alone(self, symbol, information, code):
        """Refuses a function that takes anything."""
        entry = information.function(symbol.name)
        takes = bool(entry and information.parameters(entry))
        try:
            arguments.check_set(arguments.Hart(0, symbol, entry), {}, [each for part in code.values() for each in part])
        except Refused:
            takes = True
        if takes:
            raise Refused(f"{self.name} takes arguments: --init names a function without any, which calls it")

    def refused(self, pc, why):
        where = self.notes[pc // 4] if pc // 4 < len(self.notes) else ""
        return Refused(f"{where}{': ' * bool(where)}{self.name} {why}")

    def run(self, memory):
        """What it makes of this memory, without its stack."""
        engine = machine.Machine(self.test, BUFFER)
        state = engine.opening[0], memory
        for _ in range(MOST):
            hart = state[0][0]
            if hart[2] != machine.RUNNING:
                break
            self.check_access(hart)
            _, is_entry, after = engine.step(state, ("a", 0))
            state = after if is_entry else engine.step(state, ("l", 0))[2]
        hart = state[0][0]
        if hart[2] == machine.RUNNING:
            raise self.refused(hart[0], f"has made {MOST} instructions, and hasn't ended: does it wait for something?")
        if hart[2] != machine.ENDED:
            stop = stop_of(self.test.codes[0], hart, hart[2])
            helps = f"; if that is a device's register: --input {stop.at:#x}:{stop.width}" if stop.is_outside() else ""
            raise self.refused(hart[0], f"stops here: {stop.why()}{helps}")
        for _ in hart[3]:
            state = engine.step(state, ("l", 0))[2]
        return tuple((at, value) for at, value in state[1] if at < self.data)

    def check_access(self, hart):
        """Refuses an access that means nothing: by a null pointer, past all data and the stack, or a load of what nobody knows."""
        at, name = accessed(self.test.codes[0], hart)
        if at is None:
            return
        is_input = any(begin <= at < begin + width for begin, width in self.inputs)
        does = "loads from" if name in machine.LOADS else "stores to"
        if is_input and name not in machine.STORES:
            raise self.refused(hart[0], f"{does} an input, of which nothing is known: leave that out of it")
        if at < NULL or self.top <= at < machine.MEMORY and not is_input:
            raise self.refused(hart[0], f"{does} {at:#x}, which is {'a null pointer' if at < NULL else 'outside of each object'}")
