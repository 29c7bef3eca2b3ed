"""The log of a core, read. docs/cores.md has its lines."""

import re
from dataclasses import dataclass, field
from typing import NamedTuple

# the fields of each line, decimal or, where marked, hex. What begins with any other word is no line of the log
HEX = "ₕ"
SHAPES = {kind: tuple(fields.split()) for kind, fields in {
    "run": "SEED",
    "retire": "CYCLE HART PCₕ INSNₕ RD RD_WDATAₕ ADDRₕ RMASKₕ WMASKₕ RDATAₕ WDATAₕ PERFORMED",
    "trap": "CYCLE HART PCₕ INSNₕ CAUSE",
    "drain": "CYCLE HART ADDRₕ MASKₕ DATAₕ",
    "end": "CYCLES",
    "timeout": "CYCLES",
    "hart": "HART PC PENDING",
    "reg": "HART NUMBER VALUE",
    "word": "ADDR VALUE",
}.items()}
# numbers of 64 bits at most
DECIMAL, HEXADECIMAL = re.compile("[0-9]{1,20}"), re.compile("[0-9A-Fa-f]{1,16}")


class LogError(Exception):
    """A line that isn't of the log's form."""


class Retired(NamedTuple):
    """An instruction that retired. `performed` is the cycle in which it took effect."""
    cycle: int
    hart: int
    pc: int
    insn: int
    rd: int
    rd_value: int
    address: int
    read_lanes: int
    write_lanes: int
    read: int
    written: int
    performed: int
    line: int = 0


class Trapped(NamedTuple):
    """An instruction that raised an exception, by its cause."""
    cycle: int
    hart: int
    pc: int
    insn: int
    cause: int
    line: int = 0

    @property
    def performed(self):
        return self.cycle


class Drained(NamedTuple):
    """A store that left its hart's store buffer and changed memory."""
    cycle: int
    hart: int
    address: int
    lanes: int
    data: int
    line: int = 0


@dataclass
class Run:
    """A run: the line where it begins, what happened, in the log's order, whether it has a line `end` or `timeout`, and
    the last state as far as the log has it. Each step has its line."""
    seed: int
    line: int = 0
    steps: list = field(default_factory=list)
    cycles: int = None
    timed_out: bool = False
    # whether the log has landings where there are any, and what its reader has to say of it
    has_drains: bool = True
    notes: list = field(default_factory=list)
    # whether other runs of the log have landings, so that one with stores and none has lost them
    others_land: bool = False
    # the lines of the last state: each word and its numbers
    last: list = field(default_factory=list)

    @property
    def state(self):
        """The last state: `0:pc`, `0:pending`, `0:x5` or `word 4`, each with its value."""
        found = {}
        for kind, numbers in self.last:
            if kind == "hart":
                found[f"{numbers[0]}:pc"], found[f"{numbers[0]}:pending"] = numbers[1:]
            else:
                found[f"{numbers[0]}:x{numbers[1]}" if kind == "reg" else f"word {numbers[0]}"] = numbers[-1]
        return found


STEPS, LAST = {"retire": Retired, "trap": Trapped, "drain": Drained}, {"hart", "reg", "word"}
# of how many other words a log's reader takes note, and how many different lines it keeps
MOST_SKIPPED, KEPT = 20, 1 << 16


def shape_of(kind):
    """The form of a whole line with this word."""
    numbers = [f"({(HEXADECIMAL if each.endswith(HEX) else DECIMAL).pattern}{'|-' * (each == 'PERFORMED')})" for each in SHAPES[kind]]
    return re.compile(r"\s*" + r"\s+".join([kind, *numbers]) + r"\s*")


# of each kind of line its form, and which of its numbers are hex
FORMS = {kind: (shape_of(kind), [16 if each.endswith(HEX) else 10 for each in fields]) for kind, fields in SHAPES.items()}


class Lines(dict):
    """The lines of a log that were read, each with its word and its numbers: a core's runs of one test have most lines in common. A word that is none
    of a log's has no numbers."""

    def __missing__(self, line):
        kind = next(iter(line.split(None, 1)), "")
        made = (kind, numbers_of(kind, line) if kind in SHAPES else None)
        if len(self) >= KEPT:
            self.clear()
        self[line] = made
        return made


def numbers_of(kind, line):
    """The numbers of a line."""
    shape, bases = FORMS[kind]
    found = shape.fullmatch(line)
    if not found:
        raise LogError(wrong_in(kind, line.split()[1:]))
    words = found.groups()
    if words[-1] == "-":
        words = (*words[:-1], words[0])
    numbers = tuple(map(int, words, bases))
    if kind in STEPS and not is_of_words(step := STEPS[kind](*numbers)):
        raise LogError(f"the address {step.address:x} is no multiple of 4, or a mask has more than 4 bits")
    return numbers


def wrong_in(kind, words):
    """What is wrong with the fields of a line."""
    fields = SHAPES[kind]
    if len(words) != len(fields):
        return f"`{kind}` has {len(fields)} fields, not {len(words)}"
    name, word = next((name, word) for name, word in zip(fields, words) if not is_number(name, word))
    taken = "1 to 16 hex digits" if name.endswith(HEX) else "1 to 20 decimal digits" + " or `-`" * (name == "PERFORMED")
    return f"{name.removesuffix(HEX)} is `{word[:40]}`: it takes {taken}"


def is_number(name, word):
    """Whether a word is the number of a field."""
    return (HEXADECIMAL if name.endswith(HEX) else DECIMAL).fullmatch(word) or name == "PERFORMED" and word == "-"


def is_of_words(step):
    """Whether the addresses and masks of a step are of words of 32 bits."""
    if isinstance(step, Drained):
        masks = [step.lanes]
    elif isinstance(step, Retired) and step.read_lanes | step.write_lanes:
        masks = [step.read_lanes, step.write_lanes]
    else:
        return True
    return step.address % 4 == 0 and all(mask < 1 << 4 for mask in masks)


def runs(lines, skipped=None, first=1):
    """The runs of a log, one after the other. Each word that begins another line than a log's goes into `skipped`, with
    its first line and how often it came. `first` is the number of the first line."""
    run, known, new = None, Lines(), tuple.__new__
    for number, line in enumerate(lines, first):
        try:
            kind, numbers = known[line]
        except LogError as error:
            raise LogError(f"line {number}: {error}") from None
        if run and kind in STEPS:
            # a named tuple's own way takes twice as long
            run.steps.append(new(STEPS[kind], (*numbers, number)))
        elif run and kind in LAST:
            run.last.append((kind, numbers))
        elif numbers is None:
            note_skipped(skipped, kind, number)
        elif kind == "run":
            if run:
                yield run
            run = Run(numbers[0], number)
        elif run is None:
            raise LogError(f"line {number}: no line `run SEED` stands above")
        else:
            run.cycles, run.timed_out = numbers[0], kind == "timeout"
    if run:
        yield run


def note_skipped(skipped, word, number, times=1):
    """Counts a line that isn't a log's."""
    if skipped is not None and word and (word in skipped or len(skipped) < MOST_SKIPPED):
        first, count = skipped.get(word, (number, 0))
        skipped[word] = first, count + times


def add_skipped(skipped, later):
    """Counts what was skipped in a later part of the log."""
    for word, (number, times) in later.items():
        note_skipped(skipped, word, number, times)
