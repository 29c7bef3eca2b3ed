"""What `ztso show` tells of a litmus text: each hart's code and registers, the words of memory and their names."""

import subprocess
from typing import NamedTuple

# the bytes of the words that a text can name, and of the machine's memory
NAMED, MEMORY = 4 * 1024, 16 * 1024

SIZE = 1 << 32


class Hart(NamedTuple):
    code: list       # words of instructions
    lines: dict      # the instruction as text, by its pc
    registers: dict  # those that don't open as 0


class Test(NamedTuple):
    name: str
    harts: list
    words: dict      # by their addresses
    places: dict     # the addresses by their names

    def byte(self, place):
        return self.words.get(place & ~3, 0) >> 8 * (place % 4) & 255

    def end(self):
        """Where its words end. One that names as many as a text can may have more, which open as 0: then it is the memory's end."""
        last = max(self.words, default=-4) + 4
        return MEMORY if last == NAMED else last

    def number(self, place, width):
        return sum(self.byte(place + at) << 8 * at for at in range(width))


def read(program, path):
    """The test of a litmus text, as the program shows it; raises CalledProcessError where the program refuses it."""
    shown = subprocess.run([program, "show", path], stdin=subprocess.DEVNULL, capture_output=True, text=True, check=True).stdout
    test = Test("", [], {}, {})
    for line in shown.splitlines():
        kind, *words = line.split()
        if kind == "test":
            test = test._replace(name=words[0])
        elif kind == "hart":
            test.harts.append(Hart([], {}, {}))
        elif kind == "code":
            test.harts[int(words[0])].code.append(int(words[3], 16))
            test.harts[int(words[0])].lines[int(words[1])] = " ".join(words[4:])
        elif kind == "reg":
            test.harts[int(words[0])].registers[int(words[1].lstrip("x"))] = int(words[2], 0) % SIZE
        elif kind == "location":
            test.words[int(words[0])] = int(words[1], 0) % SIZE
            test.places[words[2]] = int(words[0])
    return test
