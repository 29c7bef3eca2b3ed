"""What a test is, as the command `show` prints it (docs/formats.md). Three things that it doesn't print are read off
the text: the question, the cells of a row that is refused, and which registers open, as an address or as 0."""

import re

from page_parts.faults import Fault, of_line
from page_parts.questions import CELLS
from page_parts.slips import slips

# the assembler's own refusals of a cell: its name, its operands, its numbers; and those of labels, which are of a hart's code
OF_CELLS, OF_LABELS = (2, 3, 4), (5, 6)
# the row above a table's cells
HARTS = re.compile(r"^[ \t]*P0[ \t]*[|;]", re.MULTILINE)
# what separates words of a text
BLANKS = " \t\r\n"
COMMENT = re.compile(r"\(\*(.*?)(?:\*\)|\Z)", re.DOTALL)
OPENING = re.compile(r"\n[ \t]*\{([^}]*)\}")
# an item of the opening part that gives a number, or a name's address, to a register
OPENED = re.compile(r"\s*0*([0-9]{1,2})\s*:\s*([a-z0-9]+)\s*=\s*(-?\w+)\s*", re.ASCII)
ABI = ("zero", "ra", "sp", "gp", "tp", "t0", "t1", "t2", "s0", "s1", *(f"a{n}" for n in range(8)),
       *(f"s{n}" for n in range(2, 12)), *(f"t{n}" for n in range(3, 7)))
REGISTERS = {name: number for number, abi in enumerate(ABI) for name in (abi, f"x{number}")} | {"fp": 8}
# an instruction whose last operand is how far it jumps
JUMP = re.compile(r"(?:b[a-z]+|jal) (?:.*,)?(-?[0-9]+)")


def listed(shown, text):
    """What the page shows of a text, of which `show` printed this."""
    harts, locations, lefts, said = [], {}, [], {}
    for line in shown.splitlines():
        kind, _, rest = line.partition(" ")
        if kind == "hart":
            harts.append({"rows": [], "labels": {}, "pointers": {}, "opens": {}})
        elif kind == "label":
            hart, pc, _, name = rest.split(" ")
            harts[int(hart)]["labels"].setdefault(int(pc), []).append(name)
        elif kind == "code":
            hart, row = row_of(*rest.split(" ", 4))
            harts[hart]["rows"].append(row)
        elif kind == "reg":
            hart, register, value = map(int, rest.split(" "))
            harts[hart]["opens"][register] = value
        elif kind == "location":
            address, _, name = rest.split(" ")
            locations[name] = int(address)
        elif kind == "left":
            lefts.append({"name": rest, "place": place_of(rest, locations)})
        else:
            said[kind] = rest
    if sum(len(hart["rows"]) for hart in harts) > CELLS:
        raise Fault("TooLong", [f"The page shows at most {CELLS} instructions; the commands take this test."])
    add_opened(harts, locations, text)
    return {"title": said["test"], "question": question(text), "kind": re.match("~?[a-z]+", said["condition"])[0],
            "condition": said["condition"], "lefts": lefts, "harts": harts, "slips": slips(harts, lefts, locations),
            "locations": [{"name": name, "address": address} for name, address in locations.items()]}


def row_of(hart, pc, line, word, text):
    """A hart's number and a row of its code, with the pc that it may jump to."""
    jump = JUMP.fullmatch(text)
    target = {"target": int(pc) + int(jump[1])} if jump else {}
    return int(hart), {"pc": int(pc), "line": int(line), "word": word, "text": text} | target


def place_of(left, locations):
    """What an observed location of the condition stands for: a hart's register, or the word at an address."""
    register = re.fullmatch("([0-9]+):x([0-9]+)", left)
    return ["register", *map(int, register.groups())] if register else ["word", locations[left]]


def add_opened(harts, locations, text):
    """The registers that open as a location's address, each with the location's name, and those that open as 0."""
    opening = OPENING.search(without_comments(text))
    for item in opening[1].split(";") if opening else []:
        shape = OPENED.fullmatch(item)
        if shape and shape[2] in REGISTERS and int(shape[1]) < len(harts):
            hart, register = harts[int(shape[1])], REGISTERS[shape[2]]
            hart["opens"].setdefault(register, 0)
            if shape[3] in locations:
                hart["pointers"][register] = shape[3]


def question(text):
    """The first comment of a text, in which the shelf's tests have their question."""
    comment = COMMENT.search(text)
    words = comment[1].strip(BLANKS) if comment else ""
    # how a test of C was made: the compiler's flags follow
    return words.partition("\n")[0] if words.startswith("tools/from-c ") else " ".join(re.split(f"[{BLANKS}]+", words))


def cells(text, line):
    """The cells of the row that begins on a line, as they stand."""
    begin = sum(len(one) + 1 for one in text.split("\n")[:line - 1])
    row = without_comments(text)[begin:].partition("\n")[0]
    return row.partition(";")[0].split("|")


def faulty_cell(refused, text, line):
    """The first cell of a row that the assembler refuses, for its own sake or for its label in the hart's code, and what it
    says; `refused` has its line."""
    row = cells(text, line)
    code, at = codes(text, line, len(row))
    for numbers, texts, place in ((OF_CELLS, row, {}), (OF_LABELS, code, {"line": at})):
        for hart, one in enumerate(texts):
            err = refused(one)
            fault = of_line(err).said if err else {}
            if fault.get("number") in numbers and place in ({}, fault["place"]):
                return {"hart": hart, "text": row[hart].strip(BLANKS), "words": fault["words"][:1]}
    return None


def codes(text, line, count):
    """Each hart's code as assembly, a line for each line below the harts' names, and which of them begins on a line of the text.
    It is blank for what is no row with this many cells."""
    bare = without_comments(text)
    head = HARTS.search(bare)
    begin = sum(len(one) + 1 for one in text.split("\n")[:line - 1])
    above = bare[head.end():begin].count("\n") if head else 0
    rows = [one.partition(";")[0].split("|") if ";" in one else [] for one in bare[head.end():].split("\n")[1:]] if head else []
    return ["\n".join(row[hart] if len(row) == count else "" for row in rows) for hart in range(count)], above


def without_comments(text):
    """The text with a blank for each character of a comment, so that a comment joins lines."""
    return COMMENT.sub(lambda found: " " * len(found[0]), text)
