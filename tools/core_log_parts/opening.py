"""What a core needs of a litmus test: each hart's words of code, and what registers and memory open with, as
`ztso show --steps` prints it."""

from dataclasses import dataclass, field
from functools import cached_property

from bring_parts import Refused, answer


@dataclass
class Opening:
    text: str                                      # a steps text without events
    codes: list = field(default_factory=list)      # of each hart, its words
    registers: dict = field(default_factory=dict)  # (hart, number): value
    words: dict = field(default_factory=dict)      # address: value

    @cached_property
    def by_places(self):
        """The words of code by hart and pc."""
        return {(hart, 4 * place): word for hart, code in enumerate(self.codes) for place, word in enumerate(code)}


def opening(program, path):
    """The opening of a litmus text. A text that isn't one is refused as the program refuses it."""
    made = Opening(answer(program, "show", "--steps", path))
    for line in made.text.splitlines():
        head, *rest = line.split()
        if head == "hart":
            made.codes.append([int(word, 16) for word in rest])
        elif head == "reg":
            hart, number, value = map(int, rest)
            made.registers[hart, number] = value
        elif head == "word":
            address, value = map(int, rest)
            made.words[address] = value
        else:
            raise Refused(f"{path}: {program} shows the line `{line}`, which no steps text without events has")
    return made
