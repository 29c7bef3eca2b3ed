"""Charts: a run as a picture in text, a row for each entry. docs/looking.md shows some, and crates/chart/specs
has the rules of rows, lanes and widths."""

import re

import faults
import litmus
import programs
import words
from machine import outcome, verdict

STOPS = {8: " Illegal", 9: " Misaligned", 11: " OutOfRange", 12: " MisalignedJump", 13: " NoCode",
         14: " UnknownCall", 15: " Break"}
LONGEST_NAME = 8
LONGEST_TEXT = 255
MOST_ROWS = 10_000
# whether all harts share a column, instructions are shown, how many lanes, and landings name their store's row
FORMS = [(False, True, 6, True), (False, False, 6, True), (True, True, 6, True), (True, False, 6, True),
         (True, False, 0, False)]


class Heading:
    """A test's name, its condition in one line, and the instructions of its harts."""

    def __init__(self, text):
        clean = litmus.without_comments(text)
        above, below = clean.split("}", 1)
        self.name = "".join(map(shown, above.split()[1].encode()))
        asked = re.search(r"^[ \t]*(~?exists|forall)", below, re.MULTILINE).start()
        self.condition = " ".join(below[asked:].split())
        table = [line.rsplit(";", 1)[0].split("|") for line in below[:asked].splitlines() if line.strip()]
        self.code = [[words.text(*words.decoded(word)) for word in programs.read("\n".join(column[1:]) + "\n")]
                     for column in zip(*table)]


def shown(each):
    return chr(each) if 31 < each < 127 else "?"


class Room:
    """What columns have room for whatever the run, by the test's instructions: values of one digit, rows' numbers
    as long as those of a run that does each instruction once, and a lane for each store."""

    def __init__(self, code, names):
        digits = len(str(sum(map(len, code)) + sum(map(stores, code))))
        name = max(map(len, names), default=0)
        after = [(text, *said_after(text, name, digits)) for text in sum(code, [])]
        self.said = max((len(text) + 2 + said for text, said, _ in after), default=0)
        self.brief = max((said for _, said, _ in after), default=0)
        self.kept = max((kept for _, _, kept in after), default=0)
        self.lanes, self.shared = max(map(stores, code), default=0), sum(map(stores, code))


def mnemonic(text):
    return text.split(" ")[0].split(".")[0]


def stores(code):
    return sum(mnemonic(text) in words.STORES for text in code)


def said_after(text, name, digits):
    """The cells of what a row says after its instruction, and in memory, for a location's name of so many."""
    kind = mnemonic(text)
    part = name + (2 if kind[1:2] in "bh" else 0)
    if kind in ("lb", "lh", "lw", "lbu", "lhu"):
        return part + len(" = 0 [mem ]") + digits, 0
    if kind in words.STORES:
        return part + len(" := 0"), part + len(" = 0 []") + digits
    if kind in words.AMOS:
        return name + len(": 0 -> 0 [mem ]") + digits, name + len(" = 0")
    return len({"fence": "not full", "ecall": "ended"}.get(kind, "")), 0


class Row:
    """What an entry says: beside its instruction, in memory, and where its bytes came from."""

    def __init__(self, hart, instruction):
        self.hart, self.instruction, self.kind = hart, instruction, ""
        self.effect = self.tag = self.memory = ""
        self.own, self.landed = [], None


class Rows:
    def __init__(self, test):
        self.names = {address: name for name, address in test.locations.items()}
        self.rows, self.pending, self.wrote = [], {}, {}

    def part(self, address, width=4):
        name = self.names.get(address // 4 * 4, "@")
        word = name if name != "@" and len(name) <= LONGEST_NAME else f"@{address // 4 * 4}"
        return word if width == 4 else f"{word}+{address % 4}"

    def read(self, row, address, width):
        own, memory, opening = [], [], False
        for a in range(address, address + width):
            stores = [n for n, place, size, _ in self.pending.get(row.hart, []) if place <= a < place + size]
            if stores:
                own += [stores[-1]] if stores[-1] not in own else []
            elif a in self.wrote:
                memory += [self.wrote[a]] if self.wrote[a] not in memory else []
            else:
                opening = True
        parts = [" ".join([name, *(str(n + 1) for n in found)]) for name, found in (("own", own), ("mem", memory)) if found]
        row.own, row.tag = own, "[" + " ".join(parts + ["init"] * opening) + "]"

    def write(self, address, width):
        self.wrote |= {a: len(self.rows) for a in range(address, address + width)}

    def add(self, hart, instruction, told):
        kind, _, *said = told.split()
        row = Row(hart, instruction)
        row.kind = kind.rstrip("12")
        width = int(kind[-1]) if kind[-1] in "12" else 4
        if row.kind in ("load", "store"):
            address, value = map(int, said)
            row.effect = f"{self.part(address, width)} {'=' if row.kind == 'load' else ':='} {value}"
            if row.kind == "load":
                self.read(row, address, width)
            else:
                self.pending.setdefault(hart, []).append((len(self.rows), address, width, value))
        elif row.kind == "amo":
            address, old, new = map(int, said)
            row.effect, row.memory = f"{self.part(address)}: {old} -> {new}", f"{self.part(address)} = {new}"
            self.read(row, address, 4)
            self.write(address, 4)
        elif row.kind == "land":
            row.landed, address, width, value = self.pending[hart].pop(0)
            row.memory = f"{self.part(address, width)} = {value}"
            self.write(address, width)
        elif row.kind == "fence":
            row.effect = {"full": "full", "part": "not full"}[said[0]]
        elif row.kind == "stopped":
            row.effect = f"stopped {said[0]}{STOPS.get(int(said[0]), '')}"
        elif row.kind != "inner":
            row.effect = " ".join([kind, *said])
        self.rows.append(row)


def beside(gap, *texts):
    return gap.join(filter(None, texts))


def shortened(text):
    return text if len(text) <= LONGEST_TEXT else "..."


class Picture:
    """The rows in one form: their texts, their lanes and where all of it stands. Rows that are left out stay silent."""

    def __init__(self, rows, harts, room, form, without=()):
        self.listed, self.instructions, self.most, stores = form
        self.rows, self.harts, self.drawn = rows, harts, [n for n, row in enumerate(rows) if row.kind not in without]
        effects = [beside("  ", f"P{r.hart}" if self.listed else "", r.instruction if self.instructions else "", r.effect) for r in rows]
        self.said = ["" if r.kind in without else shortened(beside(" ", effect, r.tag)) for effect, r in zip(effects, rows)]
        self.kept = [shortened(r.memory + (f" [{r.landed + 1}]" if stores and r.landed is not None else "")) for r in rows]
        self.lane()
        caller = len(f"P{harts - 1}") + 2 if self.listed else 0
        least = min(caller + (room.said if self.instructions else room.brief), LONGEST_TEXT)
        self.text = max([least, *map(len, self.said)])
        self.used = max([min(room.shared if self.listed else room.lanes, self.most), *(own[2] + 1 for own, _ in self.lanes if own)])
        self.pitch = self.text + 2 * self.used + 4
        self.memory = 9 + (1 if self.listed else harts) * self.pitch
        self.width = self.memory + max([6, room.kept, *map(len, self.kept)])

    def lane(self):
        """For each row the line that it begins or ends and those that pass it: row, column and lane."""
        held, self.lanes = [], []
        for n, row in enumerate(self.rows):
            column, own = 0 if self.listed else row.hart, None
            if row.kind == "land":
                own = next((h for h in held if h[0] == row.landed), None)
                held = [h for h in held if h[0] != row.landed]
            self.lanes.append((own, list(held)))
            if row.kind == "store":
                free = [k for k in range(self.most) if all(h[1:] != (column, k) for h in held)]
                if free:
                    self.lanes[-1] = (n, column, free[0]), self.lanes[-1][1]
                    held.append((n, column, free[0]))
        self.held = held

    def begins(self, column):
        return 7 + (0 if self.listed else column) * self.pitch

    def at(self, held):
        return self.begins(held[1]) + self.text + 2 * (self.used - held[2])

    def line(self, n):
        row, said, (own, passing) = self.rows[n], self.said[n], self.lanes[n]
        cells = [" "] * self.width
        begin = self.begins(0 if self.listed else row.hart)
        behind = begin + len(said)

        def across(sign, first, last):
            cells[first:last] = sign * max(0, last - first)

        if row.kind == "store" and own:
            across("-", behind + 1, self.at(own))
            cells[self.at(own)] = "."
        elif row.kind == "store":
            cells[behind + 1] = "~"
        elif row.kind == "land" and own:
            across("-", self.at(own) + 1, self.memory - 2)
            cells[self.at(own)], cells[self.memory - 2] = "'", ">"
        elif row.kind == "land":
            cells[self.memory - 3:self.memory - 1] = "~>"
        elif row.kind == "amo":
            across("=", behind + 2, self.memory - 2)
            cells[behind + 1], cells[self.memory - 2] = "<", ">"
        for held in passing:
            if held[0] in row.own:
                across("-", behind + 2, self.at(held))
                cells[behind + 1] = "<"
        for held in passing:
            cells[self.at(held)] = "o" if held[0] in row.own else "|"
        assert behind < self.memory, "two texts of a row meet"
        put(cells, 5 - len(str(n + 1)), str(n + 1))
        put(cells, begin, said)
        put(cells, self.memory, self.kept[n])
        return "".join(cells).rstrip(" ")

    def lines(self):
        heads = [" "] * self.width
        for column, name in [(None, "harts")] if self.listed else [(h, f"P{h}") for h in range(self.harts)]:
            put(heads, 7 if column is None else self.begins(column), name)
        put(heads, self.memory, "memory")
        ends = [" "] * self.width
        for held in self.held:
            ends[self.at(held)] = "v"
        return ["".join(heads).rstrip(" "), *map(self.line, self.drawn),
                *(["".join(ends).rstrip(" ")] if self.held else [])]


def put(cells, at, text):
    cells[at:at + len(text)] = text


def limit(harts):
    return 110 if harts <= 2 else min(20 + 40 * harts, 200)


def chart(text, test, machine, walk, without=()):
    """The lines of a run's picture, without the rows of these kinds."""
    heading, rows, state = Heading(text), Rows(test), machine.opening
    for event, told, entry, after in walk:
        if entry and len(rows.rows) == MOST_ROWS:
            raise faults.refused(faults.TOO_LARGE)
        if entry:
            hart = event[1]
            pc, code = state[0][hart][0] // 4, heading.code[hart]
            rows.add(hart, code[pc] if event[0] == "a" and pc < len(code) else "", told)
        state = after
    harts = len(test.codes)
    room = Room(heading.code, [rows.part(address) for address in test.locations.values()])
    pictures = [Picture(rows.rows, harts, room, form, without) for form in FORMS]
    picture = next((p for p in pictures if p.width <= limit(harts)), pictures[-1])
    never = [f"still pending: P{h} {rows.part(place, width)} := {value} [{n + 1}]"
             for h in range(harts) for n, place, width, value in rows.pending.get(h, [])]
    values = [f"last value: {left} = {value}" for (left, _), value in zip(test.lefts, outcome(test, state))]
    foot = [*never, *values, f"{verdict(test, state)}: {heading.condition}"]
    hints = ["left out: the instructions, since columns would be too wide"] * (not picture.instructions)
    if hints and "inner" not in without and any(row.kind == "inner" for row in rows.rows):
        hints.append("hint: --memory leaves out rows of instructions that only compute or jump")
    return [heading.name, "", *picture.lines(), "", *foot, *hints]
