"""Draws litmus tests for a core: every instruction of RV32I and every AMO of words, with each kind of operand that the
machine has, on two to four harts that share a few words. Their condition asks for nothing: it names registers and words
that a program may write.

A hart's code is a list of blocks. Jumps and branches lead from a block to the beginning of a later one, or backwards
inside their own, whose way out is forwards: so every run ends, whatever the registers hold."""

import random
from dataclasses import dataclass

PLACES = ("x", "y", "z")
VALUES = [f"x{number}" for number in range(5, 13)]
OTHERS = [f"x{number}" for number in (0, 0, 1, 2, 3, 4, 13, 14, 15, 16, 18, 19, 28, 29, 30, 31)]
# what opens as addresses and is never written: places, one after a place, one before a place, and the middle of memory
BASES, AFTER, BEFORE, MIDDLE, CENTRE = ["x20", "x21", "x22"], "x23", "x24", "x25", 8192
# what opens as these places of code
ORIGINS = {"x26": 0, "x27": 2048}
CALL_REGISTER = "x17"
SPECIAL = (0, 1, 2, 0x7F, 0x80, 0xFF, 0x7FFF, 0x8000, 0xFFFF, 0x7FFF_FFFF, 0x8000_0000, 0xFFFF_FFFF)
OF_REGISTERS = "add sub sll slt sltu xor srl sra or and".split()
OF_NUMBERS, SHIFTS = "addi slti sltiu xori ori andi".split(), "slli srli srai".split()
BRANCHES = "beq bne blt bge bltu bgeu".split()
# those that are taken where both registers are the same one
TAKEN = "beq bge bgeu".split()
LOADS, STORES = {"lw": 4, "lh": 2, "lhu": 2, "lb": 1, "lbu": 1}, {"sw": 4, "sh": 2, "sb": 1}
AMOS = [f"amo{name}.w" for name in "swap add xor and or min max minu maxu".split()]
ORDERINGS, LETTERS = ("", "", ".aq", ".rl", ".aqrl"), "iorw"
# the instructions of a gap, over which a branch needs its highest bits
GAP = 530
# of a thousand blocks
SHARES = {"store": 290, "load": 270, "amo": 80, "fence": 60, "registers": 80, "numbers": 80, "shift": 30, "upper": 40,
          "forward": 45, "indirect": 12, "back": 10, "stop": 3}


@dataclass(frozen=True)
class Line:
    """A statement: its text, with a label before it or none. One that jumps has `{}` where the place stands to which it
    goes: a label's name, or the distance from what a register holds to the label, with this much more."""
    text: str
    goal: str = ""
    origin: int = None
    more: int = 0
    label: str = ""


class Drawer:
    """The generator of one test's instructions."""

    def __init__(self, seed):
        self.random = random.Random(seed)

    def one(self, these):
        return self.random.choice(list(these))

    def may(self, share):
        return self.random.random() < share

    def value(self):
        return self.one(OTHERS if self.may(0.12) else VALUES)

    def access(self, widths, hart):
        """A load or a store, of a word as often as of the other widths together."""
        name = self.one([*widths, *[next(iter(widths))] * 3])
        width = widths[name]
        inside = self.random.randrange(0, 4, width)
        base = self.random.choices([self.one(BASES), AFTER, BEFORE, MIDDLE], (64, 14, 14, 8))[0]
        offset = {AFTER: inside - hart.distance, BEFORE: inside + hart.distance,
                  MIDDLE: width * self.random.randrange(-2048 // width, 2048 // width)}.get(base, inside)
        if self.may(0.004):
            offset = self.one((1, 2, -2047, 2047))  # misaligned for some widths
        return f"{name} {self.value()},{offset}({base})"

    def amo(self):
        return f"{self.one(AMOS)}{self.one(ORDERINGS)} {self.value()},{self.value()},({self.one([*BASES, MIDDLE])})"

    def fence(self):
        def sides():
            return "".join(letter for letter in LETTERS if self.may(0.6)) or "0"
        return self.one(("fence.tso", "fence", *[f"fence {sides()},{sides()}"] * 5))

    def number(self):
        return self.one((-2048, -1, 0, 1, 2047, self.random.randrange(-2048, 2048)))

    def branch(self, is_taken=False):
        """A branch without its place, or a `jal`."""
        value = self.value()
        if is_taken:
            return self.one((f"{self.one(TAKEN)} {value},{value},", f"jal {value},"))
        return f"jal {value}," if self.may(0.2) else f"{self.one(BRANCHES)} {value},{self.value()},"

    def indirect(self, goal):
        """A jump by a register that holds a place of code. Bit 0 of where it goes is dropped."""
        register, origin = self.one(ORIGINS.items())
        return Line(f"jalr {self.value()},{{}}({register})", goal, origin, self.one((0, 0, 1)))

    def stop(self, hart):
        """What may stop a hart, or end it."""
        value = self.value
        return self.one(("ecall", "ebreak", "ecall", f"jal {value()},2", f"{self.one(BRANCHES)} {value()},{value()},6",
                         f"jalr {value()},2(x26)", f"{self.one(LOADS)} {value()},{self.number()}({value()})",
                         f"{self.one(STORES)} {value()},{self.number()}({value()})",
                         f"{self.one(AMOS)} {value()},{value()},({value()})"))

    def plain(self, kind, hart):
        """An instruction that doesn't jump."""
        value = self.value
        return {
            "store": lambda: self.access(STORES, hart),
            "load": lambda: self.access(LOADS, hart),
            "amo": self.amo,
            "fence": self.fence,
            "registers": lambda: f"{self.one(OF_REGISTERS)} {value()},{value()},{value()}",
            "numbers": lambda: f"{self.one(OF_NUMBERS)} {value()},{value()},{self.number()}",
            "shift": lambda: f"{self.one(SHIFTS)} {value()},{value()},{self.random.randrange(32)}",
            "upper": lambda: f"{self.one(('lui', 'auipc'))} {value()},{self.one((0, 1, self.random.randrange(1 << 20)))}",
        }[kind]()

    def back(self, at, gap, hart):
        """Round some instructions, back to them, and then on."""
        inside = [Line(self.plain(self.one(("store", "load", "registers")), hart)) for _ in range(self.random.randint(1, 2))]
        first = Line(inside[0].text, label=f"B{at}")
        turn = self.indirect(f"B{at}") if self.may(0.2) else Line(f"{self.branch(gap > 0)}{{}}", f"B{at}")
        turn = Line(turn.text, turn.goal, turn.origin, turn.more, f"C{at}")
        return [Line(f"{self.branch(True)}{{}}", f"C{at}"), first, *inside[1:], Line(f"{self.branch(True)}{{}}", f"L{at + 1}"),
                *[Line("nop")] * gap, turn]

    def block(self, at, left, hart):
        """The block number `at`; `left` is how many come after it."""
        kind = self.random.choices(list(SHARES), SHARES.values())[0]
        goal = f"L{at + self.random.randint(1, max(1, min(3, left)))}"
        if kind == "forward":
            return [Line(f"{self.branch()}{{}}", goal)]
        if kind == "indirect":
            return [self.indirect(goal)]
        if kind == "back":
            return self.back(at, 0, hart)
        return [Line(self.stop(hart) if kind == "stop" else self.plain(kind, hart))]

    def column(self, length, has_gap, hart):
        """The cells of a hart: its blocks, one of which may have a gap."""
        count = self.random.randint(1, length)
        blocks = [self.block(at, count - at - 1, hart) for at in range(count)]
        if has_gap:
            at = self.random.randrange(count)
            over = [Line(f"{self.branch(True)}{{}}", f"L{at + 1}"), *[Line("nop")] * GAP]
            blocks[at] = self.back(at, GAP, hart) if self.may(0.5) else over
        return cells(blocks)


@dataclass(frozen=True)
class Hart:
    """What a hart opens with that its code depends on: how far two of its bases are from their places."""
    distance: int


def cells(blocks):
    """The statements of blocks, with the labels that something goes to."""
    lines = [(line, f"L{at}" if place == 0 else "") for at, block in enumerate(blocks) for place, line in enumerate(block)]
    lines.append((Line(""), f"L{len(blocks)}"))
    places = {label: 4 * at for at, (line, own) in enumerate(lines) for label in (own, line.label) if label}
    used = {line.goal for line, _ in lines}
    made = []
    for line, own in lines:
        distance = places[line.goal] - line.origin + line.more if line.origin is not None else None
        if distance is not None and not -2048 <= distance < 2048:
            line = Line(f"jal {line.text.split()[1].split(',')[0]},{{}}", line.goal, label=line.label)
            distance = None
        labels = [label for label in (own, line.label) if label and label in used]
        # a line has one label at most
        made += [f"{label}:" for label in labels[:-1]]
        text = line.text.format(line.goal if distance is None else distance)
        made.append(f"{labels[-1]}: {text}".strip() if labels else text)
    return made if made[-1] else made[:-1]


def opening(drawer, harts, places):
    """The items of init."""
    for number, hart in enumerate(harts):
        for value in [*VALUES, *dict.fromkeys(OTHERS)]:
            if value == "x0" or value in OTHERS and drawer.may(0.5):
                continue
            opens = drawer.one(SPECIAL) if drawer.may(0.7) else drawer.random.randrange(1 << 32)
            yield f"{number}:{value}={opens};"
        yield from (f"{number}:{base}={drawer.one(places)};" for base in BASES)
        place = 4 * drawer.random.randrange(len(places))
        yield f"{number}:{AFTER}={place + hart.distance};"
        yield f"{number}:{BEFORE}={place - hart.distance};"
        yield f"{number}:{MIDDLE}={CENTRE};"
        yield from (f"{number}:{register}={origin};" for register, origin in ORIGINS.items() if origin)
        yield f"{number}:{CALL_REGISTER}={drawer.one((93, 93, 7))};"


def drawn(name, seed, length=40):
    """The text of a litmus test with some `length` instructions a hart."""
    drawer = Drawer(f"{seed}/{name}")
    places = PLACES[:drawer.random.randint(1, 3)]
    harts = [Hart(drawer.one((4, 2044, drawer.random.randrange(4, 2044, 4)))) for _ in range(drawer.random.randint(2, 4))]
    # places have the first addresses, since they stand first
    items = [*(f"{place}={drawer.random.randrange(1 << 32)};" for place in places), *opening(drawer, harts, places)]
    columns = [drawer.column(length, drawer.may(0.04), hart) for hart in harts]
    rows = [[f"P{number}" for number in range(len(harts))]]
    rows += [[column[at] if at < len(column) else "" for column in columns] for at in range(max(map(len, columns)))]
    lefts = [f"{number}:{value}" for number in range(len(harts)) for value in VALUES] + list(places)
    condition = " /\\ ".join(f"{left}=0" for left in lefts)
    lines = [f"RISCV {name}", "{", *items, "}", *(f"{' | '.join(row)} ;" for row in rows), f"exists ({condition})"]
    return "\n".join(lines) + "\n"


def write(folder, count, seed=1, length=40):
    """Writes tests below a folder, and returns their paths."""
    folder.mkdir(parents=True, exist_ok=True)
    paths = []
    for number in range(count):
        path = folder / f"drawn-{seed}-{number}.litmus"
        path.write_text(drawn(path.stem, seed, length))
        paths.append(path)
    return paths
