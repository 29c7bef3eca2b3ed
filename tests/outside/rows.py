"""The rows of the outside table that are executed: an instruction each, and the state that it meets.

Edge rows stand by subject, one subject a case; then come rows drawn with a fixed seed.
"""

import itertools
import random
from dataclasses import dataclass

ROWS_OF_A_CASE = 64
SEED = 32

TOP = 0x8000_0000
MOST = 0x7fff_ffff
ONES = 0xffff_ffff
# what the destination opens as, so that a result that isn't written shows
UNWRITTEN = 0x0bad_0bad

SUMMED = [(0, 0), (ONES, 1), (MOST, 1), (TOP, ONES), (TOP, TOP), (1, TOP)]
COMPARED = [(TOP, MOST), (MOST, TOP), (ONES, 0), (0, ONES), (MOST, MOST), (0, 1)]
BRANCHED = [(TOP, MOST), (MOST, TOP), (ONES, 0), (0, 0), (MOST, MOST), (0, 1)]
SHIFTED = [(0x8000_0001, 0), (0x8000_0001, 1), (TOP, 31), (0xdead_beef, 32), (0x8000_0001, 33),
           (0x9234_5678, ONES)]
BITWISE = [(0, ONES), (ONES, ONES), (0x0f0f_0f0f, 0x00ff_00ff), (TOP, MOST), (1, 0),
           (0x5a5a_5a5a, 0xa5a5_a5a5)]
IMMEDIATE = [(0, -2048), (ONES, 2047), (MOST, 1), (TOP, -1), (2047, 2047), (0xffff_f800, -2048)]
EXCHANGED = [(0, ONES), (ONES, 1), (TOP, MOST), (MOST, TOP), (0x0f0f_0f0f, 0x00ff_00ff)]

OPERANDS = {"add": SUMMED, "sub": SUMMED, "sll": SHIFTED, "slt": COMPARED, "sltu": COMPARED,
            "xor": BITWISE, "srl": SHIFTED, "sra": SHIFTED, "or": BITWISE, "and": BITWISE}
IMMEDIATES = ("addi", "slti", "sltiu", "xori", "ori", "andi")
IMMEDIATE_SHIFTS = ("slli", "srli", "srai")
# each branch with two words for which it isn't taken
BRANCHES = {"beq": (0, 1), "bne": (0, 0), "blt": (0, 0), "bge": (TOP, 0), "bltu": (0, 0),
            "bgeu": (0, 1)}
AMO_SUMS = ("amoswap.w", "amoadd.w")
AMO_BITWISE = ("amoxor.w", "amoand.w", "amoor.w")
AMO_BOUNDS = ("amomin.w", "amomax.w", "amominu.w", "amomaxu.w")
ORDERS = (".aq", ".rl", ".aqrl")
# bytes of an access
LOADS = {"lb": 1, "lh": 2, "lw": 4, "lbu": 1, "lhu": 2}
STORES = {"sb": 1, "sh": 2, "sw": 4}
# its bytes, and its halfwords, have the sign bit and not
SIGNS = (0x80ff_7f01, 0x7f80_ff00)


@dataclass
class Row:
    """An instruction, the registers before it, and the no-operations round it.

    Where `base` is a register, the row has a memory word: the base with the offset gives its
    address, so its opening follows from where the word lies; and the word opens as `word`.
    """
    text: str
    registers: dict
    before: int = 0
    behind: int = 0
    base: int = None
    offset: int = 0
    word: int = 0

    def place(self, hart):
        """Gives the row the memory word of that hart: from the first of the memory to the last."""
        self.address = 260 * hart if self.base is not None else None
        if self.base:
            self.registers[self.base] = (self.address - self.offset) % 2**32

    @property
    def is_store(self):
        return self.text.split()[0] in STORES


# Taken three at a time, each register but x0 comes at each place.
registers_in_turn = itertools.cycle(range(1, 32))


def take(count):
    return list(itertools.islice(registers_in_turn, count))


def opening(destination, *values):
    """Registers before an instruction with that destination; x0 takes no value."""
    registers = {destination: UNWRITTEN, **dict(values)}
    registers.pop(0, None)
    return registers


def of_registers(name, destination, first, second, values):
    return Row(f"{name} x{destination}, x{first}, x{second}",
               opening(destination, (first, values[0]), (second, values[1])))


def of_immediate(name, destination, first, value, immediate):
    return Row(f"{name} x{destination}, x{first}, {immediate}",
               opening(destination, (first, value)))


def register_rows(names):
    for name in names:
        for values in OPERANDS[name]:
            yield of_registers(name, *take(3), values)
        values, (d, a, b) = OPERANDS[name][2], take(3)
        for places in ((0, a, b), (a, a, b), (b, a, b), (d, a, a), (d, 0, b), (d, a, 0)):
            yield of_registers(name, *places, values)


def immediate_rows(names, operands):
    for name in names:
        for value, immediate in operands:
            yield of_immediate(name, *take(2), value, immediate)
        d, a = take(2)
        value, immediate = operands[1]
        for places in ((0, a), (a, a), (d, 0)):
            yield of_immediate(name, *places, value, immediate)


def upper_rows():
    for name in ("lui", "auipc"):
        for immediate in (0, 1, 0x7ffff, 0x80000, 0xfffff):
            d, = take(1)
            yield Row(f"{name} x{d}, {immediate:#x}", opening(d))
        yield Row(f"{name} x0, 0x12345", {})
        d, = take(1)
        yield Row(f"{name} x{d}, 0xfffff", opening(d), before=3)


def jump_rows():
    for offset, before, behind in ((4, 0, 0), (8, 0, 1), (8, 0, 2), (0, 0, 0), (-4, 1, 0), (-8, 3, 2),
                                   (-4, 0, 0), (1048572, 0, 0), (-1048576, 0, 0), (2048, 1, 0)):
        d, = take(1)
        yield Row(f"jal x{d}, .{offset:+}", opening(d), before, behind)
    yield Row("jal x0, .+8", {}, behind=2)
    for value, immediate, before in ((0, 8, 0), (8, 0, 0), (9, 0, 0), (8, -3, 2), (2052, -2048, 0),
                                     (1, 2047, 0), (ONES, 1, 0), (TOP, -4, 0), (0xffff_fffc, 8, 3),
                                     (MOST, 2045, 0)):
        d, a = take(2)
        yield Row(f"jalr x{d}, {immediate}(x{a})", opening(d, (a, value)), before, behind=2)
    yield Row("jalr x1, 4(x1)", {1: 4}, behind=2)
    yield Row("jalr x0, 4(x1)", {1: 4}, behind=2)
    yield Row("jalr x1, 4(x0)", opening(1), before=2, behind=1)
    yield Row("jalr x0, 0(x0)", {}, before=1)


def branch_rows():
    for name, not_taken in BRANCHES.items():
        shapes = zip(BRANCHED, (8, -4, 4092, -4096, 2048, 0), (0, 1, 0, 2, 0, 0))
        for (a, b), offset, before in shapes:
            first, second = take(2)
            yield Row(f"{name} x{first}, x{second}, .{offset:+}", {first: a, second: b}, before, 2)
        first, second = take(2)
        yield Row(f"{name} x{first}, x{first}, .+8", {first: TOP}, behind=2)
        yield Row(f"{name} x0, x{second}, .+8", {second: ONES}, behind=2)
        yield Row(f"{name} x{first}, x0, .-8", {first: ONES}, 2)
        # the target is no multiple of 4, and it isn't gone to
        yield Row(f"{name} x{first}, x{second}, .+6", dict(zip((first, second), not_taken)))


def load_and_store_rows():
    yield Row("lw x9, 0(x0)", opening(9), base=0, word=ONES)
    yield Row("sw x9, 260(x0)", {9: TOP}, base=0, offset=260, word=1)
    yield Row("lw x0, 520(x0)", {}, base=0, offset=520, word=7)
    yield Row("sw x0, 780(x0)", {}, base=0, offset=780, word=ONES)
    for offset, word in zip((0, 4, -4, 1, 2047, -2048, 2044, -2045), (0, 1, ONES, MOST, TOP) * 2):
        d, a = take(2)
        yield Row(f"lw x{d}, {offset}(x{a})", opening(d), base=a, offset=offset, word=word)
        first, second = take(2)
        yield Row(f"sw x{second}, {offset}(x{first})", {second: word}, base=first, offset=offset,
                  word=UNWRITTEN)
    yield Row("lw x5, 8(x5)", {}, base=5, offset=8, word=0x1234_5678)
    yield Row("lw x0, -8(x6)", {}, base=6, offset=-8, word=0x1234_5678)
    yield Row("sw x7, 12(x7)", {}, base=7, offset=12, word=ONES)
    yield Row("sw x0, -12(x8)", {}, base=8, offset=-12, word=ONES)


def byte_and_halfword_rows():
    """Each place of a word, with and without the sign bit; x0 as the destination, the source and the
    base; and a base that is the destination or the source."""
    for name, width in LOADS.items():
        if width < 4:
            for word, place in itertools.product(SIGNS, range(0, 4, width)):
                yield access_row(name, *take(2), 0, place, word)
            d, a = take(2)
            for places, offset in (((0, a), 4), ((a, a), -8), ((d, a), 2044), ((d, a), -2048)):
                yield access_row(name, *places, offset, 4 - width, SIGNS[0])
    for name, width in STORES.items():
        if width < 4:
            for place in range(0, 4, width):
                yield access_row(name, *take(2), 0, place, UNWRITTEN, 0xdead_beef)
            s, a = take(2)
            for places, offset in (((0, a), 4), ((a, a), -8), ((s, a), 2044), ((s, a), -2048)):
                yield access_row(name, *places, offset, 4 - width, ONES, 0x1234_5678)


def access_row(name, register, base, offset, place, word, value=None):
    """A load or store of that byte or halfword of the row's word."""
    registers = opening(register) if value is None else opening(0, (register, value))
    return Row(f"{name} x{register}, {offset + place}(x{base})", registers, base=base, offset=offset,
               word=word)


def fence_rows():
    for sets in ("iorw, iorw", "rw, rw", "w, r", "r, w", "w, w", "r, r", "rw, w", "r, rw", "io, rw",
                 "i, o"):
        yield Row(f"fence {sets}", {5: ONES})
    yield Row("fence.tso", {5: 1})
    # empty sets are allowed (PAUSE is one such fence), and reserved fm, rd and rs1 change nothing
    for fields in ("x0, x0, 0x010", "x0, x0, 0", "x5, x0, 0x033", "x0, x6, 0x033", "x5, x6, 0x033",
                   "x0, x0, 0x133", "x0, x0, -205", "x31, x31, -1", "x5, x6, -1997",
                   "x0, x0, -1997", "x0, x0, -2048"):
        yield Row(f".insn i 0x0f, 0, {fields}", {5: MOST, 6: ONES, 31: TOP})


def amo_row(name, destination, source, base, value, word):
    return Row(f"{name} x{destination}, x{source}, (x{base})", opening(destination, (source, value)),
               base=base, word=word)


def amo_rows(names):
    for name in names:
        for word, value in EXCHANGED:
            yield amo_row(name, *take(3), value, word)
        word, value = EXCHANGED[2]
        for order in ORDERS:
            yield amo_row(name + order, *take(3), value, word)
        d, s, b = take(3)
        for places in ((0, s, b), (d, 0, b), (s, s, b), (b, s, b), (d, b, b), (b, b, b)):
            yield amo_row(name, *places, value, word)


def random_row(draw):
    name = draw.choice([*OPERANDS, *IMMEDIATES, *IMMEDIATE_SHIFTS, *BRANCHES, *AMO_SUMS, *AMO_BITWISE,
                        *AMO_BOUNDS, "lui", "auipc", "jal", "jalr", *LOADS, *STORES])
    d, s = draw.randrange(32), draw.randrange(32)
    a, other = draw.sample(range(1, 32), 2)
    value, second, bystander = (draw.getrandbits(32) for _ in range(3))
    immediate = draw.randrange(-2048, 2048)
    if name in OPERANDS:
        row = of_registers(name, d, a, s, (value, second))
    elif name in IMMEDIATES:
        row = of_immediate(name, d, a, value, immediate)
    elif name in IMMEDIATE_SHIFTS:
        row = of_immediate(name, d, a, value, draw.randrange(32))
    elif name in BRANCHES:
        near = (value + draw.randrange(-1, 2)) % 2**32
        row = Row(f"{name} x{a}, x{s}, .{2 * immediate // 4 * 4:+}",
                  opening(0, (a, value), (s, draw.choice((near, second)))))
    elif name in ("lui", "auipc"):
        row = Row(f"{name} x{d}, {value >> 12:#x}", opening(d), before=draw.randrange(4))
    elif name == "jal":
        row = Row(f"jal x{d}, .{immediate * 512 + value % 128 * 4:+}", opening(d))
    elif name == "jalr":
        target = value // 4 * 4 + draw.randrange(2)
        row = Row(f"jalr x{d}, {immediate}(x{a})", opening(d, (a, (target - immediate) % 2**32)))
    elif name in LOADS:
        place = draw.randrange(0, 4, LOADS[name])
        row = access_row(name, d, a, immediate // 4 * 4, place, value)
    elif name in STORES:
        place = draw.randrange(0, 4, STORES[name])
        row = access_row(name, s, a, immediate // 4 * 4, place, second, value)
    else:
        row = amo_row(name + draw.choice(("", *ORDERS)), d, s, a, value, second)
    row.registers.setdefault(other, bystander)
    return row


def cases():
    """The rows of each case, by its name."""
    draw = random.Random(SEED)
    shift_immediates = [(0x8000_0001, 0), (ONES, 31), (0x8000_0001, 1), (TOP, 31), (MOST, 30), (1, 16)]
    return {
        "sums-and-comparisons": [*register_rows(("add", "sub", "slt", "sltu"))],
        "bitwise": [*register_rows(("xor", "or", "and"))],
        "immediates": [*immediate_rows(IMMEDIATES, IMMEDIATE)],
        "shifts": [*register_rows(("sll", "srl", "sra")),
                   *immediate_rows(IMMEDIATE_SHIFTS, shift_immediates)],
        "upper-immediates-and-jumps": [*upper_rows(), *jump_rows()],
        "branches": [*branch_rows()],
        "loads-and-stores": [*load_and_store_rows()],
        "bytes-and-halfwords": [*byte_and_halfword_rows()],
        "fences": [*fence_rows()],
        "amo-swap-and-sum": [*amo_rows(AMO_SUMS)],
        "amo-bitwise": [*amo_rows(AMO_BITWISE)],
        "amo-minimum-and-maximum": [*amo_rows(AMO_BOUNDS)],
        "drawn": [random_row(draw) for _ in range(ROWS_OF_A_CASE)],
    }
