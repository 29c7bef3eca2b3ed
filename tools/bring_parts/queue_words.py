"""The answer of `ztso queue` in the words of tools/queue: places by their names, counts in short, and one line for all accesses of one line of the source;
and the order of its parts."""

import re
from dataclasses import dataclass

from bring_parts import compilers

# an instruction that a line names, and what tools/certify says of a hart that is covered, which is how far the search came
NAMED, COVERED = re.compile(r"hart (\d+)\b.*?\bpc (\d+),"), re.compile(r"hart [0-9]+: [0-9]+ states$")
COUNT = re.compile(r"(queue [0-9]+: count n is the word )([0-9]+) \+ ([0-9]+) \* \(\(n \+ ([0-9]+)\) mod ([0-9]+)\)(.*)")
ACCESS = re.compile(r"(queue [0-9]+: (?:stored to|loaded from) by hart ([0-9]+)) at pc ([0-9]+), (.*)")
PLACED = re.compile(r"(queue [0-9]+: it (?:stored [0-9]+ to|loaded [0-9]+ from) )the ([0-9]+) bytes at ([0-9]+)(.*)")
INDICES = re.compile(r"(queue [0-9]+: its head is )the ([0-9]+) bytes at ([0-9]+), its tail those at ([0-9]+)")
SLOTS = re.compile(r"(queue [0-9]+: it has )([0-9]+) slots of ([0-9]+) bytes from ([0-9]+) on(.*)")
ELEMENT = re.compile(r"(queue [0-9]+: its tag is .* of each element of 1 byte)s( from [0-9]+ on, .*)")
FIELD = re.compile(r"(queue [0-9]+: the )1 bytes (from [0-9]+ on of each record) are (.*)")
# what is promised, and where nothing is
PROMISED = re.compile(r"(?:not )?promised: |nothing is claimed$")
# what leads to a schedule, which stays the end
SHOWN = "shown by this schedule"
POWERS = {1 << 16: "2^16", 1 << 32: "2^32"}
NOTE_OF_SUPPORT = re.compile(rf"{re.escape(compilers.SUPPORT.name)}:([0-9]+)")
# a note of an instruction, which a text has in a comment
NOTE = re.compile(r"(?:(?P<file>[\w.+-]+):)?(?P<line>\d+): (?P<text>.*)")
# of this many calls of a function of the support code the lines are named
CALLS = 3


def power(number):
    return POWERS.get(number, str(number))


def word_of_count(base, scale, offset, modulus):
    """The word that stands for count n, as it is written in short."""
    count = "n" if not offset else "(n - 1)" if offset == modulus - 1 else f"(n + {offset})"
    word = f"{count} mod {power(modulus)}"
    word = f"{scale} * ({word})" if scale != 1 else f"({word})" if base else word
    return f"{base} + {word}" if base else word


def bytes_at(width, place):
    return f"the byte at {place}" if width == 1 else f"the {width} bytes at {place}"


def counted_slots(number, width):
    return f"{number} slot{'s' * (number != 1)} of {width} byte{'s' * (width != 1)}"


def worded(line, name_of):
    """A line of the answer in these words; `name_of` gives the name of these bytes at a place, or None."""
    if shape := COUNT.fullmatch(line):
        return f"{shape[1]}{word_of_count(*map(int, shape.groups()[1:5]))}{shape[6]}"
    if shape := PLACED.fullmatch(line):
        width, place = int(shape[2]), int(shape[3])
        name = name_of(place, width)
        return f"{shape[1]}{name}, {bytes_at(width, place)}{shape[4]}" if name else f"{shape[1]}{bytes_at(width, place)}{shape[4]}"
    if shape := INDICES.fullmatch(line):
        width, head, tail = map(int, shape.groups()[1:])
        names = [name_of(place, width) for place in (head, tail)]
        if all(names):
            return f"{shape[1]}{names[0]}, {bytes_at(width, head)}, its tail {names[1]}, {'that' if width == 1 else 'those'} at {tail}"
        return f"{shape[1]}{bytes_at(width, head)}, its tail {'that' if width == 1 else 'those'} at {tail}"
    if shape := SLOTS.fullmatch(line):
        return f"{shape[1]}{counted_slots(int(shape[2]), int(shape[3]))} from {shape[4]} on{shape[5]}"
    if shape := ELEMENT.fullmatch(line):
        return f"{shape[1]}{shape[2]}"
    if shape := FIELD.fullmatch(line):
        return f"{shape[1]}byte {shape[2]} is {shape[3]}"
    return line


def joined(lines, notes):
    """The lines, of which those on accesses of one queue by one line of a source are the first of them, with how many more there are."""
    groups = {}
    for line in lines:
        if (shape := ACCESS.fullmatch(line)) and (note := note_at(notes, int(shape[2]), int(shape[3]))):
            groups.setdefault((shape[1], note), []).append((int(shape[3]), line))
    first = {group[0][1]: group for group in groups.values()}
    others = {line for group in groups.values() for _, line in group[1:]}
    for line in lines:
        if line not in others:
            yield line + further(first.get(line, ()))


def further(group):
    """What is said of the accesses of a group after its first."""
    if len(group) < 3:
        return "".join(f", and at pc {pc}" for pc, _ in group[1:])
    return f", and by {len(group) - 1} more of the same line, up to pc {group[-1][0]}"


def note_at(notes, hart, pc):
    """What a text says of an instruction, or nothing."""
    return notes[hart][pc // 4] if hart < len(notes) and pc // 4 < len(notes[hart]) else ""


def in_order(answer):
    """The lines of an answer: the first, those on what is promised, the others, and those of a schedule."""
    first, *rest = answer.splitlines()
    end = next((at for at, line in enumerate(rest) if line.startswith(SHOWN)), len(rest))
    return first, [line for line in rest if PROMISED.match(line)], [line for line in rest[:end] if not PROMISED.match(line)], rest[end:]


# ---- the tools' own code

def support_function(note):
    """The function of the tools' own code of which an instruction's note names a line, or None."""
    shape = NOTE_OF_SUPPORT.fullmatch(note)
    lines = compilers.SUPPORT.read_text().split("\n")[:int(shape[1])] if shape else ()
    heads = [re.match(r"[a-z].*?(\w+)\(", line) for line in lines]
    return next((head[1] for head in reversed(heads) if head), None)


def calls_of(code, notes, at):
    """The places in a hart's code from which the function at a place is called: one of the support code, which begins where code of others jumps to."""
    goals = {}
    for place, instruction in enumerate(code):
        if instruction[0] == "jal" and instruction[1] and not support_function(notes[place]):
            goals.setdefault(place + instruction[-1] // 4, []).append(place)
    begin = max((goal for goal in goals if goal <= at and support_function(notes[goal])), default=None)
    return goals.get(begin, [])


@dataclass(frozen=True)
class Origin:
    """The lines from which an instruction comes, as notes; of the tools' own code its function, and the lines that call that."""
    function: str
    lines: list


def origin(hart, pc, notes, code):
    """Where an instruction comes from."""
    note, at = note_at(notes, hart, pc), pc // 4
    function = support_function(note)
    if not function:
        return Origin(None, [note] if note else [])
    places = calls_of(code, notes[hart], at) if code else []
    return Origin(function, [line for line in dict.fromkeys(notes[hart][place] for place in places) if line])


def source_lines(hart, pc, notes, code):
    """The lines for the source of an instruction: its own, or of the tools' own code where that is called from."""
    found = origin(hart, pc, notes, code)
    named = [f"    P{hart} {line}" for line in found.lines]
    if not found.function:
        return named
    own = f"    in {found.function}, which is code of these tools and not of yours{': called by' if named else ''}"
    return [own, *named[:CALLS], *["    .."] * (len(named) > CALLS)]


@dataclass(frozen=True)
class Note:
    """What a note says: a line's number and text, and the file's name, or None of the only one."""
    file: str
    line: int
    text: str


def note_of(note):
    """The parts of a note, or None of one that names no line."""
    shape = NOTE.fullmatch(note)
    return Note(shape["file"], int(shape["line"]), shape["text"]) if shape else None
