"""What each hart's registers open as: its function's parameters, as far as the debugging information has them, and what the
question sets."""

from dataclasses import dataclass

from bring_parts import Refused, dwarf

import assembly

ARGUMENTS = 8
# the registers in which a function finds arguments or nothing, and which a call may change
PASSED = {f"x{number}" for number in (*range(5, 8), *range(10, 18), *range(28, 32))}


@dataclass(frozen=True)
class Hart:
    """A hart's number, the symbol of its function, and that function's debugging information, or None."""
    number: int
    symbol: object
    function: dwarf.Entry

    @property
    def name(self):
        return self.symbol.plain


def opened(hart, question, information):
    """The registers that are set, by number; and the types of what parameters point to, by the parameters' names, where the
    question doesn't say what they are."""
    set_here = {name: value for (number, name), value in question.settings.items() if number == hart.number}
    parameters = information.parameters(hart.function) if hart.function else []
    if len(parameters) > ARGUMENTS:
        raise Refused(f"{hart.name} takes arguments from the stack: a hart has at most {ARGUMENTS} parameters")
    registers, pointed = {}, {}
    for at, (name, kind) in enumerate(parameters):
        value = next((set_here.pop(key) for key in (name, f"a{at}", f"x{10 + at}") if key in set_here), None)
        if value is None and kind is not None and kind.tag in dwarf.POINTERS:
            value = name
            pointed[name] = information.kind_of(kind)
        if value is None:
            raise Refused(f"{hart.name}'s parameter {name} is no pointer and has no value: write `init {hart.number}:{name}=1`")
        registers[10 + at] = value
    for name, value in set_here.items():
        if name in assembly.REGISTERS:
            registers[assembly.REGISTERS[name]] = value
        elif not hart.function:
            raise Refused(f"init sets {hart.number}:{name}, and {hart.name} has no debugging information, so its parameters aren't "
                          f"known: name registers, as in `init {hart.number}:a0={value}`")
    return registers, pointed


def check_set(hart, registers, code):
    """Refuses a hart that reads a register for arguments which nothing has written on any way there: of code without types
    it isn't known how many parameters it has, and a register that opens as 0 would be no argument of its author's."""
    places = {each.at: at for at, each in enumerate(code)}
    written, todo = {0: frozenset(f"x{number}" for number in registers)}, [0]
    while todo:
        at = todo.pop()
        each, after = code[at], written[at].union(code[at].registers_written())
        following = [] if each.is_end() else [at + 1]
        if each.is_call():
            after |= PASSED
            following = [at + 1] + [places[goal] for goal in each.goals() if goal in places]
        elif each.goals():
            following += [places[goal] for goal in each.goals() if goal in places]
        for place in following:
            known = written.get(place)
            if place < len(code) and (known is None or not after <= known):
                written[place] = after | (known or frozenset())
                todo.append(place)
    for at, before in sorted(written.items()):
        unset = [register for register in code[at].registers_read() if register in PASSED - before]
        if unset:
            name = assembly.NAMES[int(unset[0][1:])]
            raise Refused(f"{code[at].where()}: {hart.name} reads {name}, and nothing says what it is: write "
                          f"`init {hart.number}:{name}=..`" + ("" if hart.function else ", or compile with -g"))


def check_returned(hart, left, register, information):
    """Refuses a condition that asks for what a function doesn't return."""
    if not hart.function:
        return
    kind = information.returned(hart.function)
    if register != 10 or kind is None:
        raise Refused(f"the condition asks for {left}, and {hart.name} returns " + ("its value in a0" if kind else "nothing"))
    if kind.number("byte_size", default=4) > 4:
        raise Refused(f"the condition asks for {left}, and {hart.name} returns more than 32 bits")


def register_of(left):
    """The register that a condition asks for by `H:name`."""
    name = left.partition(":")[2]
    if name not in assembly.REGISTERS:
        raise Refused(f"the condition asks for {left}, which is no register: a hart's value is what its function returns, `a0`")
    return assembly.REGISTERS[name]
