"""Certificates at each place of a rule's edge, made by rows, with what must come of each: worked out from the pages, by where bytes lie and by what
the machine of tools/reference does, and not from the check."""

import itertools

import litmus
from machine import CONDITIONS, IMMEDIATES, MASK, OPERATIONS, Machine

# null, head, tail, four slots, and two words of nobody
HEAD, TAIL, SLOTS, SIZE, WORD, NEXT = 4, 8, 12, 4, 28, 32
NAMES = "int null; int head; int tail; int slot_0; int slot_1; int slot_2; int slot_3; int n; int m;"
ACCESSES = {"sb": 1, "sh": 2, "sw": 4, "amoswap.w": 4, "amoadd.w": 4}
LOADS = {"lb": 1, "lh": 2, "lw": 4, "lbu": 1, "lhu": 2}
QUEUE = f"queue 0 1 {HEAD} {TAIL} 4 {SLOTS} {SIZE} 4 4 0 1 0 4294967296 0"
# whether drawn runs break the queue then or not; and of what is accepted, which no hart uses as a queue
REFUSED, ACCEPTED = ": hart {} at pc 0,", "not shown: no instruction of hart"


def text(*cells, init=""):
    """A text whose harts have these instructions, one each."""
    harts = [f" P{hart} |"[:-1] for hart in range(len(cells))]
    return f"RISCV sweep\n{{\n{NAMES}\n{init}\n}}\n{'|'.join(harts)};\n {' | '.join(cells)} ;\nexists (null=0)\n"


def hart(own=(), known=(), to=4, share="share 0 0 0"):
    """A hart's part: one state, and the one after it, if it has an instruction."""
    lines = ["hart", *([f"own {' '.join(own)}"] if own else ()), "open 0", "state 0", *known, share, "leaf 0"]
    return "\n".join([*lines, *((f"to 1\nstate {to}\n{share}\nleaf 0",) if to else ())])


def certificate(*harts, queue=QUEUE):
    return "\n".join(["ztso-queues 1", queue, *harts, ""])


def access(name, address):
    """An access of x5's address, by a hart, and where that opens."""
    if name.startswith("amo"):
        return f"{name} x0,x6,(x5)", f"x5={address};"
    return f"{name} x6,0(x5)", f"x5={address};"


def overlap(first, width, other, count):
    return first < other + count and other < first + width


def words_of_another():
    """A store to bytes of which another hart has some as its own word is refused."""
    for name, width in ACCESSES.items():
        for own_width in (1, 2, 4):
            for own in range(WORD - own_width, WORD + width + 1):
                code, opens = access(name, WORD)
                yield (text("", code, init=f"1:{opens}"),
                       certificate(hart([f"{own}:{own_width}"], to=0, share="share 0 0 4"), hart(known=[f"reg 5 {WORD}"])), [],
                       (REFUSED.format(1) if overlap(own, own_width, WORD, width) else ACCEPTED))


def places_of_a_queue():
    """A store to a queue is of a slot that its hart owns, whole: the sender owns the middle two of four slots."""
    share = "share 0 1 2"
    # two positions may be in use, and it opens at 1
    two = QUEUE.replace(f" {SIZE} 4 4 ", f" {SIZE} 4 2 ").removesuffix("0") + "1"
    for name, width in ACCESSES.items():
        for address in range(WORD + 1):
            code, opens = access(name, address)
            is_off = not any(overlap(address, width, place, count) for place, count in ((HEAD, 4), (TAIL, 4), (SLOTS, 4 * SIZE)))
            is_owned = SLOTS + 4 <= address and address + width <= SLOTS + 12 and (address - SLOTS) % 4 + width <= 4
            yield (text(code, "", init=f"head=1; tail=1; 0:{opens}"),
                   certificate(hart(known=[f"reg 5 {address}"], share=share), hart(to=0, share="share 0 1 0"), queue=two), [],
                   (ACCEPTED if is_off or is_owned else REFUSED.format(0)))


def third_hart(cell, init, known):
    """A queue whose receiver loads what it doesn't own, which is kept except for its reads, and a third hart: what the machine makes of its one
    instruction tells whether that may be said never to stop it."""
    body = f"RISCV sweep\n{{\n{NAMES}\n{init}\n}}\n P0 | P1 | P2 ;\n sw x6,{SLOTS}(x0) | lw x6,{SLOTS}(x0) | {cell} ;\nexists (null=0)\n"
    machine = Machine(litmus.read(body), 4)
    outcome, _, _ = machine.step(machine.opening, ("a", 2))
    return (body, certificate(hart(share="share 0 0 4"), hart(), hart(known=known)), ["--harts"],
            "hart 2: not shown that it is never stopped" if outcome.startswith("stopped") else "hart 2: never stopped")


def stopped_harts():
    """A hart is never stopped by an access that is aligned and within memory."""
    for name in (*ACCESSES, *LOADS):
        for address in (*range(WORD, WORD + 4), *range(16376, 16390)):
            code, opens = access(name, address)
            yield third_hart(code, f"2:{opens}", [f"reg 5 {address}"])


def calls():
    """Nor by an environment call that there is."""
    for number in (*range(6), 92, 93, 94, 2**32 - 1):
        yield third_hart("ecall", f"2:x17={number};", [f"reg 17 {number}"])


def claim(code, opens, states, first=""):
    """Hart 0 runs this code from registers that open so; its states, each with its lines and those of where it goes on; and that it isn't used."""
    init = " ".join(f"0:x{number}={value};" for number, value in opens.items())
    body = f"RISCV sweep\n{{\n{NAMES}\n{init}\n}}\n P0 | P1 ;\n" + "".join(f" {line} | ;\n" for line in code) + "exists (null=0)\n"
    part = "\n".join(["hart", f"open 0{first}"] + [
        "\n".join([f"state {pc}", *lines, "share 0 0 4", "leaf 0", *(f"to {to}" for to in arrows)]) for pc, lines, arrows in states])
    return body, certificate(part, hart(to=0))


EDGES = (0, 1, 5, 31, 2**31 - 1, 2**31, 2**32 - 1)
PAIRS = [(a, b) for at, a in enumerate(EDGES) for beside, b in enumerate(EDGES) if (2 * at + beside) % 4 == 1 or a == b]
REGISTERS = ("add", "sub", "sll", "slt", "sltu", "xor", "srl", "sra", "or", "and")
BRANCHES = ("beq", "bne", "blt", "bge", "bltu", "bgeu")


def verdict(holds, pc=0):
    return ACCEPTED if holds else f": hart 0 at pc {pc},"


def numbers():
    """What an instruction makes of two numbers is what the machine's makes, and no other number."""
    for op in REGISTERS:
        for a, b in PAIRS:
            right = OPERATIONS[op](a, b) & MASK
            for said in (right, (right + 1) & MASK):
                states = [(0, [f"reg 5 {a}", f"reg 6 {b}"], ["1"]), (4, [f"reg 7 {said}"], [])]
                yield *claim([f"{op} x7,x5,x6"], {5: a, 6: b}, states), [], verdict(said == right)


def branches():
    """A branch of one of several numbers, which rise from 0 or fall from 5, and another goes one way where it does for each of them."""
    for op, most, (start, step) in itertools.product(BRANCHES, (0, 5, 6), ((0, 1), (5, MASK))):
        reached = [(start + step * x) & MASK for x in range(most + 1)]
        for n, is_left in itertools.product((0, 5, 6, 2**31 - 1, 2**31), (True, False)):
            code = [f"{op} {'x5,x6' if is_left else 'x6,x5'},8", "nop"]
            ways = {CONDITIONS[op](x, n) if is_left else CONDITIONS[op](n, x) for x in reached}
            # numbers are compared where they don't pass 0, and with their sign where none is negative, if they aren't known
            is_known = op in ("beq", "bne") or most == 0 or max(reached) < 2**31 and (op in ("bltu", "bgeu") or n < 2**31)
            is_known = is_known and (most > 0 or op not in ("blt", "bge") or n < 2**31)
            for taken in (True, False):
                states = [(0, [f"most {most}", f"reg 5 {start}+{step}*0", f"reg 6 {n}"], ["1"]), (8 if taken else 4, [], [] if taken else ["2"]), (8, [], [])]
                yield *claim(code, {5: start, 6: n}, states, " 0"), [], verdict(ways == {taken} and is_known)


def greatest():
    """A result of anything is at most so much, and not less."""
    cases = [*((f"{op} x7,28(x0)", 256**width - 1) for op, width in (("lbu", 1), ("lhu", 2), ("lw", 4))),
             *((f"andi x7,x5,{m}", m) for m in (1, 2, 5, 12, 255, 2047)),
             *((f"srli x7,x5,{n}", 2**(32 - n) - 1) for n in (1, 4, 31)), ("slt x7,x5,x6", 1), ("sltu x7,x5,x6", 1), ("slti x7,x5,4", 1), ("sltiu x7,x5,4", 1)]
    for line, most in cases:
        for said in (most, most - 1):
            states = [(0, [f"most {MASK}", "reg 5 1*0"], ["1 1*0"]), (4, [f"most {said}", "reg 7 1*0"], [])]
            yield *claim([line], {5: 0}, states, " 0"), [], verdict(said == most)


SHIFTED = (("slli", 1), ("slli", 20), ("srli", 3), ("srli", 20), ("srai", 1), ("srai", 31), ("ori", 32),
           ("andi", 8), ("andi", 2047), ("andi", -2), ("andi", -16))


def bits():
    """Bits that an `ori` makes 1 are known after a mask and a shift, each where it lies then, and no other bit."""
    for made, (op, n) in itertools.product((1, 0x18, 0x7FF, -2048), SHIFTED):
        # each bit of the result is one of the number's, or none: it is known where none and all of the others give the same
        one, other = (OPERATIONS[IMMEDIATES[op]](x & MASK, n & MASK) & MASK for x in (made, -1))
        mask = MASK ^ one ^ other
        if op == "andi" and n > 0 and n & (n + 1) == 0 and not made & n:
            # low bits of which none is known are taken for a number
            continue
        # all that is known, a bit less, and a bit more
        lowest = mask & -mask
        for less, more in ((0, 0), (lowest, 0), *([(0, 1 << (mask ^ MASK).bit_length() - 1)] if mask != MASK else ())):
            value = f"&{mask ^ less | more}:{one & ~less}" if mask != MASK else one
            states = [(0, ["most -", "reg 5 1*0"], ["1"]), (4, [f"reg 5 &{made & MASK}:{made & MASK}"], ["2"]), (8, [f"reg 7 {value}"], [])]
            yield *claim([f"ori x5,x5,{made}", f"{op} x7,x5,{n}"], {5: 0}, states, " 0"), [], verdict(not more, 4)


# a queue with a field of its records, at an offset of slots of 8 bytes
WIDE = f"queue 0 1 {HEAD} {TAIL} 4 {SLOTS} 2 8 2 0 1 0 4294967296 0"


def received(code, states, field):
    """Hart 1 looks, and then executes one instruction, in a case in which it owns a position and in one in which it may not."""
    body = f"RISCV sweep\n{{\n{NAMES}\n1:x6=1;\n}}\n P0 | P1 ;\n | lw x8,{HEAD}(x0) ;\n | {code} ;\nexists (null=0)\n"
    part = "\n".join(["hart", "open 0", "state 0", "reg 6 1", "share 0 0 0", "leaf 0", "to 1 1*0", "state 4", "most 2", "reg 6 1", "share 0 0 1*0", *states])
    return body, certificate(hart(to=0, share="share 0 0 2"), part, queue="\n".join([WIDE, *field]))


def fields_received():
    """What a record's field may be is what a load of just it leaves, with its sign where no number has the highest bit."""
    for field_width, at, name, beside in itertools.product((1, 2), (0, 2, 4), LOADS, (0, 1)):
        for last in (2**(8 * field_width - 1) - 1, 2**(8 * field_width - 1)):
            width = LOADS[name]
            is_it = width == field_width and not beside and (name not in ("lb", "lh") or last < 2**(8 * width - 1))
            # a variable for the number, and one for how many positions are owned
            its = ["split 0 0", "leaf 0", "to 2", "leaf 0", "to 3 1*0 1*1", "state 8", "share 0 0 0", "leaf 0",
                   "state 8", "most 1 1", f"reg 7 {last - 1}+1*0", "share 0 0 1+1*1", "leaf 0"]
            yield *received(f"{name} x7,{SLOTS + at + beside}(x0)", its, [f"field {at} {field_width} {last - 1} 1 1"]), [], \
                (ACCEPTED if is_it else ": hart 1 at pc 4,")


def receivers_stores():
    """The receiver stores to no slot of a queue with fields; to its own slot of another it may."""
    for at, has_field in itertools.product(range(8), (True, False)):
        its = ["split 0 0", "leaf 0", "to 2", "leaf 0", "to 3 1*1", "state 8", "share 0 0 0", "leaf 0", "state 8", "most 1", "share 0 0 1+1*0", "leaf 0"]
        # where it owns nothing it may not store at all: it waits there by a branch that is taken
        code = f"beq x8,x0,8 ;\n | sb x6,{SLOTS + at}(x0)"
        its = ["split 0 0", "leaf 0", "to 2", "leaf 0", "to 3 1*1", "state 12", "share 0 0 0", "leaf 0",
               "state 8", "most 1", "share 0 0 1+1*0", "leaf 0", "to 4 1*1", "state 12", "most 1", "share 0 0 1+1*0", "leaf 0"]
        its = ["reg 8 @0:1*0", *its]
        yield *received(code, its, ["field 0 1 0 1 255"] * has_field), [], (": hart 1 at pc 8," if has_field else ACCEPTED)


def fields_sent():
    """A record is sent where its field was stored, whole, as one of its numbers, and nothing after it stored over it."""
    stores = [(name, value, None) for name in ("sb", "sh", "sw", "amoswap.w") for value in (7, 8, 9, 16, 17)]
    for at, (name, value, over) in itertools.product((0, 4), [*stores, *(("sh", 8, over) for over in (3, 4, 5, 6, 8, 12))]):
        code, opens = access(name, SLOTS + at)
        cells = [code, f"sb x0,{SLOTS + over}(x0)" if over is not None else "nop", f"sw x9,{HEAD}(x0)"]
        body = "".join([f"RISCV sweep\n{{\n{NAMES}\n0:{opens} 0:x6={value}; 0:x9=1;\n}}\n P0 | P1 ;\n", *(f" {cell} | ;\n" for cell in cells),
                        "exists (null=0)\n"])
        part = "\n".join(["hart", "open 0", "state 0", f"reg 5 {SLOTS + at}", f"reg 6 {value}", "reg 9 1", "share 0 0 2", "leaf 0", "to 1",
                          "state 4", "reg 9 1", "share 0 0 2", "filled 0 0 0", "leaf 0", "to 2",
                          "state 8", "reg 9 1", "share 0 0 2", "filled 0 0 0", "leaf 1", "to 3", "state 12", "share 0 1 1", "leaf 0"])
        is_right = name == "sh" and value in (8, 16)
        is_over = over is not None and at <= over < at + 2
        yield (body, certificate(part, hart(to=0), queue=f"{WIDE}\nfield {at} 2 8 8 1"), [],
               "not shown: no instruction of hart 1 loads" if is_right and not is_over else f": hart 0 at pc {4 if is_right else 0},")


def tags_beside():
    """Elements with tags are the slots, or no byte of theirs is one of a slot."""
    for size, width, stride in ((4, 4, 2), (4, 4, 4), (3, 4, 8), (1, 8, 4)):
        for place in (WORD - size * stride - 1, WORD - size * stride, WORD - size * stride + 1, WORD, WORD + size * width - 1, WORD + size * width):
            if place < 0:
                continue
            is_so = (place, stride) == (WORD, width) or not overlap(place, size * stride, WORD, size * width)
            line = f"tagged 0 1 {WORD} {size} {width} 0 1 zero 0 {place} {stride}"
            yield (text("", ""), certificate(hart(to=0, share="share 0 0 0"), hart(to=0), queue=line), [],
                   ACCEPTED if is_so else "not shown: queue 0 has tags that overlap its slots")


def tags_made():
    """A number of 0 to `most` makes a tag full whose bit of 8 is 0 then, where each is below 8."""
    for most in (0, 7, 8, 15):
        opens = " ".join(f"slot_{slot}=8;" for slot in range(4))
        body = f"RISCV sweep\n{{\n{NAMES}\n{opens}\n}}\n P0 | P1 ;\n sw x6,{SLOTS}(x0) | ;\nexists (null=0)\n"
        part = f"hart\nopen 0 0\nstate 0\nmost {most}\nreg 6 1*0\nshare 0 0 4\nleaf 0\nto 1\nstate 4\nshare 0 1 3\nleaf 0"
        its = certificate(part, hart(to=0), queue=f"tagged 0 1 {SLOTS} {SIZE} 4 0 4 bits 8 8 0 0")
        yield body, its, [], "not shown: no instruction of hart 1 loads" if most < 8 else ": hart 0 at pc 0,"


def own_words():
    """After a store a hart's own word is what it was where no byte of it was stored, the number that was stored where just its bytes were, and else
    not known."""
    for (name, width), own_width in itertools.product(ACCESSES.items(), (1, 2, 4)):
        for own in range(WORD - own_width, WORD + width + 1):
            code, opens = access(name, WORD)
            for said in (0, 5):
                part = "\n".join(["hart", f"own {own}:{own_width}", "open 0", "state 0", f"reg 5 {WORD}", "reg 6 5", "word 0 0", "share 0 0 4", "leaf 0",
                                  "to 1", "state 4", f"word 0 {said}", "share 0 0 4", "leaf 0"])
                is_it, is_apart = (own, own_width) == (WORD, width), not overlap(own, own_width, WORD, width)
                # what an AMO adds to a number that is known is known, too
                is_so = said == 5 if is_it else is_apart and said == 0
                yield text(code, "", init=f"0:{opens} 0:x6=5;"), certificate(part, hart(to=0)), [], verdict(is_so)


def known_bits():
    """A word of which some bits are known is compared: a branch goes both ways where some of its numbers do, and one way if only the sign decides."""
    for op, n, mask, is_left in itertools.product(("blt", "bge"), (0, 1, 2**31 - 1, 2**31), (2**31, 2**31 + 1, 1), (True, False)):
        for bits in (0, mask):
            numbers_so = [(x & ~mask | bits) & MASK for x in (0, 1, 4, 5, 6, 2**31 - 1, 2**31, MASK)]
            ways = {CONDITIONS[op](x, n) if is_left else CONDITIONS[op](n, x) for x in numbers_so}
            is_sign = mask >= 2**31 and n == 0 and is_left
            for taken in (True, False):
                states = [(0, [], ["1", "2"]), (8, [], []), (4, [], ["1"]), (0, [f"reg 5 &{mask}:{bits}", f"reg 6 {n}"], ["1" if taken else "2"])]
                wanted = verdict(ways == {taken}) if is_sign or len(ways) == 2 else ""
                yield *claim([f"{op} {'x5,x6' if is_left else 'x6,x5'},8", "nop"], {6: n}, states), [], wanted


def endings():
    """A number of so many bits, which isn't 0, is at least 1 and below the next power of 2."""
    for width, (op, is_left) in itertools.product((1, 5, 8, 31), (("bltu", True), ("bltu", False), ("bgeu", True), ("beq", True), ("bne", True))):
        for n in (0, 1, 2**width - 1, 2**width):
            # one that is as an odd number ends in no zeros is odd itself
            reached = [1, 2**width - 1]
            ways = {CONDITIONS[op](x, n) if is_left else CONDITIONS[op](n, x) for x in reached}
            for taken in (True, False):
                states = [(0, [], ["1", "2"]), (8, [], []), (4, [], ["1"]), (0, [f"reg 5 ^{width}:1", f"reg 6 {n}"], ["1" if taken else "2"])]
                is_known = op in ("bltu", "bgeu") or n == 0
                wanted = verdict(ways == {taken}) if is_known or len(ways) == 2 else ""
                yield *claim([f"{op} {'x5,x6' if is_left else 'x6,x5'},8", "nop"], {6: n}, states), [], wanted


def queues_of_a_hart(number):
    """A hart that stores to the first slot of so many queues and ends, with ranks for each set of them that it may lack, and one that loads these."""
    at = [40 * queue for queue in range(number)]
    names = "".join(f"int at_{place}; " for place in range(0, 40 * number, 4))
    body = f"RISCV several\n{{ {names}}}\n P0 | P1 ;\n" + "".join(f" sw x6,{place + 8}(x0) | lw x6,{place + 8}(x0) ;\n" for place in at) + "exists (at_0=0)\n"
    lines = [f"queue 0 1 {place} {place + 4} 4 {place + 8} 4 4 4 0 1 0 4294967296 0" for place in at]
    sets = [lacks for length in range(1, number + 1) for lacks in itertools.combinations(range(number), length)][:63]
    for sends in (True, False):
        lines += ["hart", "open 0", "goes - 0", *(" ".join(["lacks", *map(str, lacks)]) for lacks in sets)]
        for n in range(number + 1):
            lines += [f"state {4 * n}", *(f"share {queue} 0 {4 if sends else 0}" for queue in range(number)),
                      " ".join(["rank", *[str(number - n)] * (1 + len(sets))]), "leaf 0", *([f"to {n + 1}"] if n < number else [])]
    return body, "\n".join(["ztso-queues 1", *lines, ""])


def several_queues():
    """A line is about up to six queues of a hart together."""
    for number in (2, 3, 5, 6, 7):
        wanted = "queue 0: hart 0 moves on in this or another of its queues, or looks at one and finds that it has to wait for it, within " \
            if number <= 6 else "queue 0: not shown that hart 0 publishes, or finds no slot free: the certificate has no ranks for it"
        yield *queues_of_a_hart(number), [], wanted


def stores_anywhere():
    """A store to a hart's own slots may go anywhere where these lie so far apart that it isn't known where: the first such state is named."""
    for count in (1, 2):
        width = 2**31 + 4
        code = ["sw x6,0(x5)"] * count
        body = "RISCV far\n{\nint head; int tail; int slot;\n0:x5=8;\n}\n P0 | P1 ;\n" + "".join(
            f" {line} | {load} ;\n" for line, load in zip(code, ["lw x6,8(x0)", "nop"])) + "exists (head=0)\n"
        lines = ["ztso-queues 1", f"queue 0 1 0 4 4 8 2 {width} 2 0 1 0 4294967296 0", "hart", "open 0 0"]
        for n in range(count + 1):
            lines += [f"state {4 * n}", "most 1", f"reg 5 8+{width}*0", "share 0 1*0 2", "leaf 0", *([f"to {n + 1} 1*1"] if n < count else [])]
        lines += ["hart", "open 0", "state 0", "share 0 0 0", "leaf 0", "to 1", "state 4", "share 0 0 0", "leaf 0"]
        lines += ["to 2", "state 8", "share 0 0 0", "leaf 0"] if count == 2 else []
        yield body, "\n".join([*lines, ""]), ["--harts"], "hart 0: not shown which bytes it writes: pc 0, sw x6,0(x5), state 0"


def fields_around_an_index():
    """A field that is loaded at one of several places may be no other queue's index, which lies in a slot, as it may be where it surely is another place."""
    for first, step in ((SLOTS, 8), (SLOTS + 8, 0)):
        lines = [WIDE, "field 4 4 0 1 4294967295", f"queue 0 1 {SLOTS + 4} {WORD} 4 {NEXT} 1 4 1 0 1 0 4294967296 0", "hart", "open 0", "state 0",
                 "share 0 0 2", "share 1 0 1", "leaf 0", "hart", "open 0", "state 0", "share 0 0 0", "share 1 0 0", "leaf 0",
                 "state 4", "most 1", f"reg 5 {first}+{step}*0", f"share 0 {'1*0' if step else '1'} 1", "share 1 0 0", "leaf 0", "to 2 1*1",
                 "state 8", "most 1", f"share 0 {'1*0' if step else '1'} 1", "share 1 0 0", "leaf 0"]
        body = f"RISCV sweep\n{{\n{NAMES}\n}}\n P0 | P1 ;\n | ebreak ;\n | lw x7,4(x5) ;\nexists (null=0)\n"
        yield body, "\n".join(["ztso-queues 1", *lines, ""]), [], ": hart 1 at pc 4," if step else ACCEPTED


def fields_exchanged():
    """After an AMO a field is still right if none of its bytes are among the four that it writes, whatever these are then."""
    for (at, width), place in itertools.product(((0, 2), (2, 2), (3, 1), (4, 1), (4, 4), (7, 1)), (SLOTS, SLOTS + 4, SLOTS + 8)):
        lines = ["hart", "open 0"]
        for said, states in (("", (1, None)), ("filled 0 0 0", (3, None))):
            for pc, to in zip((0, 4), states):
                lines += [f"state {pc}", f"reg 5 {place}", "share 0 0 2", *([said] if said else []), "leaf 0", *([f"to {to}"] if to else [])]
        yield (text("amoswap.w x0,x6,(x5)", "", init=f"0:x5={place};"),
               certificate("\n".join(lines), hart(to=0), queue=f"{WIDE}\nfield {at} {width} 0 1 255"), [],
               ("not shown: no instruction of hart 1 loads" if not overlap(place, 4, SLOTS + at, width) else ": hart 0 at pc 0,"))


def fields_described():
    """A field lies in its slot, and its numbers in its bytes. Of one of 8 bytes the program says that its check passes 64 bits."""
    for at, width in itertools.product((0, 1, 4, 5, 7, 8), (1, 2, 4, 7)):
        for low, step, count in ((0, 1, 255), (1, 1, 255), (0, 2**24, 2**32), (2**32 - 1, 2**24 - 1, 2**32)):
            is_so = at + width <= 9 and low + step * count < 256**width
            line = f"queue 0 1 {HEAD} {TAIL} 4 {SLOTS} 2 9 2 0 1 0 4294967296 0\nfield {at} {width} {low} {step} {count}"
            yield (text("", ""), certificate(hart(to=0, share="share 0 0 2"), hart(to=0), queue=line), [],
                   ACCEPTED if is_so else "not shown: queue 0 has a field that reaches past its slot, or a number that doesn't fit its bytes")


def splits_of_two_states():
    """Each state may have 1,024 splits."""
    part = "\n".join(["hart", "open 0 0", *(line for _ in range(2) for line in ["state 0", "most 5", *["split 0 0"] * 1024, *["leaf 0"] * 1025])])
    yield text("", ""), certificate(part, hart(to=0)), [], "not shown: hart 0 opens in another state than the certificate says"


def rows():
    """Each text with a certificate, the options, and what a line of the answer has."""
    for each in (words_of_another, own_words, places_of_a_queue, stopped_harts, calls, numbers, branches, known_bits, endings, greatest, bits, fields_received,
                 receivers_stores, fields_sent, fields_around_an_index, fields_exchanged, fields_described, tags_beside, tags_made, several_queues,
                 stores_anywhere, splits_of_two_states):
        yield from each()
