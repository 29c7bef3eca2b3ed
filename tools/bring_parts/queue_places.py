"""What a person reads in place of a hart, a pc and an address: the source's line, the instruction, and the names of bytes."""

import re
from dataclasses import dataclass

from bring_parts import listed, queue_words
from bring_parts.queue_types import ranges_of

from words import text as text_of_instruction

# this many names are said of many
PLACES = 4
ELEMENT = re.compile(r"\[\d+\]")
# a word of a text that is an array's first element, as from-c names it
FIRST = re.compile(r"\[0\].*|_0(_\w+)?$")


@dataclass(frozen=True)
class Source:
    """Where an instruction comes from: a file and a line's number, if they are known, and the line's text, or the instruction."""
    file: str
    line: int
    text: str

    def place(self):
        return f"{self.file}:{self.line}" if self.line is not None and self.file else ""

    def short(self):
        return None if self.line is None else f":{self.line}"


def parted(harts):
    """`P0 and P2`."""
    return listed([f"P{hart}" for hart in sorted(harts)]) or "no hart"


def few(names):
    """The first of these names, and how many more there are."""
    return ", ".join(names[:PLACES]) + f" and {len(names) - PLACES} more" * (len(names) > PLACES)


def as_parties(line):
    """A line in which harts are called as their functions are."""
    return re.sub(r"\bhart ([0-9]+)", r"P\1", line)


class Places:
    """The names of a text's places. `sources` are the files of the sources, by their names; `types` is None of a litmus text."""

    def __init__(self, test, notes, sources, types, widths):
        self.test, self.notes, self.sources, self.types, self.widths = test, notes, sources, types, widths
        self.words = {at: name for name, at in test.locations.items() if name != "null"}

    # ---- bytes

    def name_of(self, at, width):
        """What these bytes are called, by the source or by the text; or None."""
        name = self.words.get(at - at % 4)
        return self.types and self.types.name_at(at, width) or name and name + f"+{at % 4}" * bool(at % 4)

    def name(self, at, width=4):
        """The same, or what is said of bytes that have no name."""
        found = self.name_of(at, width)
        before = [(end, name) for _, end, name in self.types.of_memory() if end <= at] if self.types and not found else ()
        return found or (f"memory past {max(before)[1]}" if before else f"the word at {at}")

    def array(self, at):
        """The name of a place; of an array's element that of all."""
        width = self.widths.get(at, 4)
        return ELEMENT.sub("[]", self.name(at, width)) if self.name_of(at, width) else self.name(at)

    def arrays(self, places):
        """The names of places, as few as there are."""
        return few(list(dict.fromkeys(map(self.array, sorted(places))))) or "nothing"

    def of_bytes(self, found):
        """The names of what has one of these bytes; of an array's element that of all."""
        parts = self.types.of_memory() if self.types else [(at, at + 4, name) for at, name in self.words.items()]
        named = [(begin, end, ELEMENT.sub("[]", name)) for begin, end, name in sorted(parts) if not found.isdisjoint(range(begin, end))]
        rest = found.difference(*(range(begin, end) for begin, end, _ in named))
        return [*dict.fromkeys([*(name for *_, name in named), *(self.name(first - first % 4) for first, _ in ranges_of(rest))])]

    def array_from(self, at):
        """The name of the array that begins there."""
        arrays = self.types.arrays_at(str(at)) if self.types else ()
        return next((array.name for array in arrays), None) or FIRST.sub("", self.name(at))

    def slots(self, queue):
        return self.array_from(queue.slots)

    def indices(self, queue):
        return [self.name(at, queue.index_width) for at in (queue.head, queue.tail)]

    def parts(self, queue):
        """The names of all that a queue has."""
        return [*([] if queue.has_tags else self.indices(queue)), *(self.array_from(at) for kind, at, _ in queue.parts() if kind in ("slots", "tags"))]

    def called(self, queue):
        """What a queue is called: by its object, if it is one, or by how the names of its parts begin, else by all of them; and its parties."""
        names = [*([] if queue.has_tags else self.indices(queue)), self.slots(queue)]
        objects, begins = ({parted[0] for parted in parts if parted[1]} if all(parted[1] for parted in parts) else set()
                           for parts in ([name.rpartition(".") for name in names], [name.partition("_") for name in names]))
        found = next((each for each in (objects, begins) if len(each) == 1 and len(names) > 1), objects)
        return f"{found.pop() if len(found) == 1 else '/'.join(names)} (P{queue.sender} to P{queue.receiver})"

    def has_inputs(self):
        return bool(self.types and self.types.words.inputs)

    # ---- instructions

    def instruction(self, hart, pc):
        """An instruction, without what the machine doesn't need of it: the sets of a fence, .aq and .rl."""
        code = self.test.codes[hart]
        if pc // 4 >= len(code):
            return "no instruction"
        return "fence" if code[pc // 4][0] == "fence" else text_of_instruction(code[pc // 4], 0)

    def source(self, hart, pc):
        """Where an instruction comes from. One of the tools' own code comes from where that is called, if it is called from one line."""
        origin = queue_words.origin(hart, pc, self.notes, self.test.codes[hart])
        if origin.function and len(origin.lines) != 1:
            return Source(None, None, f"in {origin.function}, which is code of these tools" + ", called by several lines" * bool(origin.lines))
        note = queue_words.note_of(origin.lines[0]) if origin.lines else None
        if not note:
            return Source(None, None, self.instruction(hart, pc))
        file = self.sources.get(note.file)
        return Source(str(file) if file else note.file, note.line, note.text or self.instruction(hart, pc))

    def line(self, hart, pc):
        """`:17`, the line alone, or the pc where none is known."""
        return self.source(hart, pc).short() or f"pc {pc}"
