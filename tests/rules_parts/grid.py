"""Certificates of states that no run need reach: what is known of registers, own words, counts and fields lies at an edge, and a step leads to just
what the second implementation makes of it, or to a bit more. Nobody says what must come of these, except that the program says the same: sweeps.py
has those of which the pages or the machine tell."""

import itertools
import random
from typing import NamedTuple

import certificates
import litmus
import queues
import sent
from certificates import M32, EndsAs, HasBits, Linear

# six queues, as many as a line may be about together: words that count on, bytes that do, counts by 8 in two bytes, pointers, counts that open at 3, and
# high bytes of words
QUEUES = ("queue 0 1 4 8 4 12 4 4 4 0 1 0 4294967296 0", "queue 0 1 64 65 1 68 4 4 4 0 1 0 256 0", "queue 0 1 100 102 2 104 4 4 4 0 1 0 8 0",
          "queue 0 1 120 124 4 128 4 8 3 128 8 0 4 0", "queue 0 1 200 204 4 208 4 4 4 0 1 3 8 0",
          "queue 0 1 240 244 4 248 4 4 4 0 16777216 0 256 0")
OPENS = {120: 128, 124: 128, 200: 3, 204: 3}
# own words of 4, 2 and 1 byte
OWN, WORDS = "own 300 304:2 307:1", (300, 304, 307)
BYTES = 320
CONSTANTS = (0, 1, 5, 31, 127, 128, 255, 256, 32767, 32768, 65535, 2**31 - 1, 2**31, 2**32 - 1)
# two variables: one up to 3, and one without a bound
MOST = "most 3 -"
FORMS = ("1*0", "4*0", "8+4*0", *(f"{below - 4 + more}+1*0" for below in (128, 256, 32768, 65536, 2**31, 2**32) for more in (0, 1)),
         "3+4294967295*0", "2+4294967295*0", "1*1", "4*1", "2+4*1", "8*0+8*1", "256*1", "4294967292*1", "1*0+1*1", "16777216*1", "128+8*0")
INDICES = [f"{mark}{queue}:{form}" for mark in "@~" for queue in range(len(QUEUES)) for form in ("1", "1*0", "1*1")]
ENDS = ("^0:0", "^5:1*1", "^8:1*0", "^8:252+1*0", "^8:253+1*0", "^32:1*0", "^32:1+1*0")
BITS = ("&0:0", "&1:1", "&3:0", "&255:7", "&65535:0", "&4294967040:256", "&2147483648:0", "&2147483648:2147483648", "&2147483649:1")
VALUES = (*map(str, CONSTANTS), *FORMS, *INDICES, *ENDS, *BITS, None)
OTHERS = ("0", "1", "8", "31", "32", "255", "256", "4294967295", "1*0", "1+1*0", "1*1", "@0:1*1", "@1:1*1", "@2:1*0", "@3:1*0", "~1:1*1", "^8:1*0",
          "&255:7", None)
REGISTERS = ("add", "sub", "sll", "slt", "sltu", "xor", "srl", "sra", "or", "and")
BRANCHES = ("beq", "bne", "blt", "bge", "bltu", "bgeu")
IMMEDIATES = {"addi": (0, 1, -1, 4, 2047), "andi": (0, 1, 3, 7, 8, 12, 255, -1, -4, -256, 2047), "ori": (0, 1, 8, -1), "xori": (0, -1, 1),
              "slti": (0, 1, 4, 5, -1, 2047), "sltiu": (0, 1, 4, 5, -1), "slli": (0, 1, 2, 8, 24, 31), "srli": (0, 1, 2, 8, 24, 31), "srai": (0, 1, 31)}
LOADS, STORES = ("lb", "lh", "lw", "lbu", "lhu"), ("sb", "sh", "sw")
# how many certificates of a kind say a bit more or leave a way out, and how many have a step that may not be, one for so many steps of it
MORE = 16


class Step(NamedTuple):
    """An instruction, what is known where it stands, and its cases."""

    instruction: str
    known: tuple
    cases: tuple = ("leaf 0",)


class Setting(NamedTuple):
    """What a certificate has before its states: its queues, the shares with which each hart opens, and how words open that aren't 0."""

    queues: tuple
    shares: tuple
    opens: dict


def reduced(form, by):
    return certificates.Form(form.constant % by, tuple(factor % by for factor in form.factors)) if by else form


def written_value(listed, value):
    """The same value in numbers that a certificate may have."""
    if value is None or isinstance(value, HasBits):
        return value
    by = M32 if isinstance(value, Linear) else 1 << value.bits if isinstance(value, EndsAs) else listed[value.queue].modulus
    return value._replace(form=reduced(value.form, by))


def target(c, state, filled):
    """The lines of a state that has just what is known there, or None where a number can't be written."""
    listed = [each.queue for each in c.queues]
    state = state._replace(registers=tuple(written_value(listed, value) for value in state.registers),
                           words=tuple(written_value(listed, value) for value in state.words))
    lines = list(queues.known_lines(certificates.ListedState(state, None, filled)))
    numbers = [state.pc, *(each or 0 for each in state.ranges),
               *(number for share in state.shares for form in share for number in (form.constant, *form.factors))]
    return [f"state {state.pc}", *lines, "leaf 0"] if max(numbers) <= M32 else None


def more_known(draw, c, state, filled):
    """The same with a bit more that is known."""
    ranges, shares, at = state.ranges, state.shares, draw.randrange(8)
    slots = [(i, d) for i, each in enumerate(filled) for d in range(len(each))]
    if slots and at < 4:
        i, d = draw.choice(slots)
        fields = tuple(sorted({*filled[i][d], draw.randrange(len(c.queues[i].fields))}))
        return state, certificates.put_at(filled, i, certificates.put_at(filled[i], d, fields))
    if at == 0 and ranges[0]:
        return state._replace(ranges=(ranges[0] - 1, *ranges[1:])), filled
    if at == 1 and shares:
        i = draw.randrange(len(shares))
        more = shares[i]._replace(owned=certificates.plus(shares[i].owned, certificates.number(1)))
        return state._replace(shares=certificates.put_at(shares, i, more)), filled
    if at < 4 and state.words:
        i = draw.randrange(len(state.words))
        return state._replace(words=certificates.put_at(state.words, i, another(draw, c, state.words[i]))), filled
    return state._replace(registers=certificates.put_at(state.registers, 7, another(draw, c, state.registers[7]))), filled


def another(draw, c, value):
    """A value that says more, or another one."""
    if isinstance(value, HasBits):
        bit = 1 << draw.randrange(32)
        return HasBits(value.mask | bit, value.bits if value.mask & bit else value.bits | draw.choice((0, bit)))
    if value is None:
        form = draw.choice((certificates.number(0), certificates.number(1), certificates.Form(0, (1,)), certificates.Form(0, (0, 1))))
        bits = draw.choice((255, 2**31, 2**31 - 1))
        return draw.choice((Linear(form), EndsAs(draw.choice((8, 32)), form), HasBits(bits, draw.choice((0, bits))),
                            *(certificates.IndexFor(i, form) for i in range(len(c.queues)))))
    return value._replace(form=certificates.plus(value.form, certificates.number(draw.choice((1, 1, 255)))))


def text_of(code, hart, opens):
    """The hart runs these instructions, after each of which, and where it jumps to, it stops."""
    lines = ["ebreak", *itertools.chain.from_iterable((line, "ebreak", "ebreak") for line in code)]
    names = "".join(f"int at_{place}; " for place in range(0, BYTES, 4))
    init = " ".join(f"at_{place}={number};" for place, number in opens.items())
    rows = "".join(f" {line} | ;\n" if hart == 0 else f" | {line} ;\n" for line in lines)
    return f"RISCV grid\n{{\n{names}\n{init}\n}}\n P0 | P1 ;\n{rows}exists (at_0=0)\n"


def certificate_of(setting, hart, states):
    """Of the hart these states, after one at which it opens; and of the other one that."""
    parties = [["hart", *([OWN] if at == hart else []), "open 0", "state 0", *setting.shares[at], "leaf 0"] for at in range(2)]
    parties[hart] += states
    return "\n".join(["ztso-queues 1", *setting.queues, *parties[0], *parties[1], ""])


class Made:
    """The steps of a hart, each with the states that follow it."""

    def __init__(self, setting, hart, steps, draw):
        self.setting, self.hart, self.draw = setting, hart, draw
        code = list(dict.fromkeys(step.instruction for step in steps))
        self.text, pcs = text_of(code, hart, setting.opens), {line: 4 + 12 * at for at, line in enumerate(code)}
        self.heads = [[f"state {pcs[step.instruction]}", *step.known] for step in steps]
        listed = [line for head, step in zip(self.heads, steps) for line in (*head, *step.cases)]
        self.c = queues.read(certificate_of(setting, hart, listed))
        opening = queues.opening_of(litmus.read(self.text))
        self.steps, self.code = steps, opening.harts[hart][0]
        self.listed = certificates.part_of(self.c, hart).states[1:]

    def leaves(self, at):
        """Of each leaf of a step its state, and those that follow with what is right ahead in them; or None."""
        found = []
        for k, (handed, _) in certificates.leaves(self.listed[at].known, self.listed[at].cases):
            following = certificates.next_states(self.c, self.hart, self.code, k, handed)
            if following is None or not sent.keeps_all_fields(self.c, self.hart, self.code, self.listed[at]):
                return None
            filled = self.filled(self.listed[at].filled, k, handed)
            found.append([(state, filled) for state in following])
        return found

    def filled(self, marks, k, handed):
        """What is right ahead of the counts after a step."""
        steps, instruction = certificates.steps_of(self.c, self.hart), certificates.instruction_at(self.code, k.pc)
        found = []
        for i, (q, _, fields) in enumerate(self.c.queues):
            effect = sent.effect_of(steps, i, k, handed, instruction) if fields and q.sender == self.hart else None
            its, stored = certificates.get_or(marks, i, ()), sent.value_stored(steps, k, instruction)
            found.append(tuple(tuple(j for j in range(len(fields)) if effect is not None and sent.is_filled_after(
                k.ranges, q, fields, stored, its, effect, d, j)) for d in range(q.size if fields else 0)))
        return tuple(found)

    def written(self, step, before, change=None):
        """A step's lines and those of what follows, where so many states stand before, with one of these changed, if there is a change; and how many
        states these are. None where a number can't be written."""
        leaves = self.found[step]
        if leaves is None:
            return [*self.heads[step], *self.steps[step].cases], 1
        # of a step that goes on in several ways one may be left out in place of a change
        ways = [each for following in leaves for each in following]
        changed = self.draw.randrange(len(ways)) if change and ways else None
        is_left_out = changed is not None and len(ways) > 1 and self.draw.random() < .6
        targets, arrows, at = [], [], 0
        for following in leaves:
            arrows.append([])
            for state, filled in following:
                at += 1
                if at - 1 == changed and is_left_out:
                    continue
                lines = target(self.c, *(change(state, filled) if at - 1 == changed else (state, filled)))
                if lines is None:
                    return None
                arrows[-1].append(" ".join([f"to {before + 1 + len(targets)}", *(f"1*{variable}" for variable in range(len(state.ranges)))]))
                targets.append(lines)
        its = iter(arrows)
        cases = [each for line in self.steps[step].cases for each in ([line, *next(its, ())] if line.startswith("leaf") else [line])]
        return [*self.heads[step], *cases, *itertools.chain.from_iterable(targets)], 1 + len(targets)

    def rows(self, number):
        """All that follow just so, in one certificate; those that may not follow, and of the others so many that say more."""
        self.found = [self.leaves(at) for at in range(len(self.steps))]
        right, states = [], 1
        for at in (at for at, found in enumerate(self.found) if found is not None):
            if written := self.written(at, states):
                right += written[0]
                states += written[1]
        alone = [at for at, found in enumerate(self.found) if found is None]
        alone = [self.written(at, 1) for at in self.draw.sample(alone, min(number, len(alone)))]
        more = [self.written(at, 1, self.more) for at in self.draw.sample(range(len(self.steps)), min(number, len(self.steps)))]
        for lines in (right, *(each[0] for each in (*alone, *more) if each)):
            yield self.text, certificate_of(self.setting, self.hart, lines), ["--safety"], ""

    def more(self, state, filled):
        return more_known(self.draw, self.c, state, filled)


def known(*lines):
    """What is known of registers and words, of which a value may be nothing, after the variables."""
    return (MOST, *(" ".join(map(str, line)) for line in lines if line[-1] is not None))


def computing(draw):
    """What instructions make of values."""
    pairs = [*itertools.product(VALUES, OTHERS), *itertools.product(OTHERS, VALUES)]
    for op in REGISTERS:
        yield 90, 0, [Step(f"{op} x7,x5,x6", known(("reg 5", v), ("reg 6", w))) for v, w in pairs]
    for op, numbers in IMMEDIATES.items():
        yield 400 if op == "andi" else 140, 0, [Step(f"{op} x7,x5,{n}", known(("reg 5", v))) for v in VALUES for n in numbers]
    yield 250, 0, [Step(f"{op} x5,x6,8", known(("reg 5", v), ("reg 6", w))) for op in BRANCHES for v, w in draw.sample(pairs, 100)]


def own_words(draw):
    """What is known of own words that are loaded, stored and exchanged."""
    yield 150, 0, [Step(f"{op} x7,{place}(x0)", known((f"word {at}", v))) for op in LOADS for at, place in enumerate(WORDS) for v in VALUES]
    yield 150, 0, [Step(f"{op} x5,{place + beside}(x0)", known(("reg 5", v), (f"word {at}", w)))
           for op in STORES for at, place in enumerate(WORDS) for beside in (0, 1) for v in VALUES for w in (draw.choice(VALUES),)]
    yield 100, 0, [Step(f"{op} x7,x5,(x6)", known(("reg 5", v), ("reg 6", place), (f"word {at}", w)))
           for op in ("amoswap.w", "amoadd.w", "amoor.w") for at, place in enumerate(WORDS) for v in VALUES[::3] for w in (draw.choice(VALUES),)]


def sum_of(one, other):
    """The form that is the sum of a form and a number or a variable."""
    constant, factors = 0, [0, 0]
    for piece in (*one.split("+"), other):
        factor, _, variable = piece.partition("*")
        if variable:
            factors[int(variable)] += int(factor)
        else:
            constant += int(factor)
    return queues.form_text(certificates.Form(constant, tuple(factors)))


def shared(queue, own, owned):
    return f"share {queue}", f"{own} {owned}"


def moves(draw):
    """Indices of its own that a hart stores, loads and exchanges."""
    for i, line in enumerate(QUEUES):
        head, modulus = int(line.split()[3]), int(line.split()[13])
        steps = []
        for op, own, owned, handed in itertools.product((*STORES, "amo"), ("0", "1*0", "1*1", "5+1*0"), ("0", "1", "4", "1*0"), ("0", "1", "1*0", "2")):
            value = draw.choice((f"@{i}:{sum_of(own, handed)}", f"@{i}:{sum_of(own, handed)}", f"~{i}:{sum_of(own, handed)}", sum_of(own, handed),
                                 f"@{i}:{sum_of(sum_of(own, handed), str(modulus % M32))}", draw.choice(VALUES)))
            code = f"{op} x5,{head}(x0)" if op != "amo" else draw.choice(("amoswap.w x7,x5,(x6)", "amoadd.w x7,x5,(x6)"))
            steps.append(Step(code, known(("reg 5", value), ("reg 6", head), shared(i, own, owned)), (f"leaf {handed}",)))
        yield 110, 0, [*steps, *(Step(f"{op} x7,{head}(x0)", known(shared(i, own, "1"))) for op in LOADS for own in ("0", "1*0", "1*1", "5+1*0"))]


def looks(_draw):
    """Indices of the other party that a hart loads, whole or not."""
    for hart in range(2):
        yield 200, hart, [Step(f"{op} x7,{int(line.split()[4 - hart]) + beside}(x0)", known(shared(i, own, owned)))
                     for i, line in enumerate(QUEUES) for op in LOADS for beside in (0, 1) for own in ("0", "1*0", "1*1", "5+1*0", "254+1*0")
                     for owned in ("0", "1", "4", "1*0")]


# of words of four slots from 12 on, and of pointers' eight bytes from 128 on: addresses, beside counts
SLOTS = (("12+4*0", 0, "1*0"), ("16+4*0", 0, "1*0"), ("24+4*0", 0, "1*0"), ("12+4*0", 0, "4+1*0"), ("12", 0, "0"), ("16", 0, "0"), ("24", 0, "0"),
         ("28", 0, "0"), ("11", 0, "0"), ("13+4*0", 0, "1*0"), ("12+4*1", 0, "1*1"), ("128+8*0", 3, "1*0"), ("132+8*0", 3, "1*0"), ("152", 3, "3"),
         ("128", 3, "4"))


def slots(_draw):
    """Accesses of slots, at each place of what a hart owns, and past it."""
    for hart in range(2):
        yield 200, hart, [Step(code, known(("reg 5", place), ("reg 8", place), shared(i, own, owned)))
                     for code in (*(f"{op} x6,{beside}(x5)" for op in (*STORES, *LOADS) for beside in (0, 1, 2, 4)), "amoswap.w x7,x6,(x5)")
                     for place, i, own in SLOTS for owned in ("0", "1", "3", "4", "1*0")]


def splits(_draw):
    """The cases of a variable, of two, and of one that has no bound."""
    trees = [(f"split {j} {m}", "leaf 0", "leaf 1*0") for j in (0, 1) for m in (0, 1, 2, 3, 4)]
    trees += [("split 0 1", "split 0 0", "leaf 0", "leaf 0", "split 0 0", "leaf 0", "leaf 0"),
              ("split 1 5", "split 0 2", "leaf 0", "leaf 0", "split 1 0", "leaf 0", "leaf 0")]
    yield 160, 0, [Step(code, known(("reg 5", v), ("reg 6", "1"), shared(0, "1*0", "1*1")), cases)
              for code in ("nop", "add x7,x5,x6", "beq x5,x6,8", "bltu x5,x6,8")
              for v in ("1*0", "2*0", "1*1", "3+4294967295*0", "1*0+1*1", "@0:1*1") for cases in trees]


FIELDS = ("field 0 2 8 8 1", "field 2 1 0 1 127", "field 4 4 0 1 4294967295")


def fields(queue):
    """What a sender stores to fields of its records, what it publishes, and what a receiver loads of them."""
    filled = ((), ("0 0",), ("0 0 1 2",), ("0 0 1 2", "1 0 1"), ("1 0 1 2",))
    filled = [[f"filled {queue} {each}" for each in marks] for marks in filled]
    values = ("0", "7", "8", "16", "17", "8+8*0", "8*0", "1*0", "124+1*0", "125+1*0", "1*1", None)
    stores = [Step(f"{op} x5,{12 + beside}(x0)", (*known(("reg 5", v), shared(queue, "0", owned)), *marks))
              for op in (*STORES,) for beside in (0, 1, 2, 3, 4, 8, 10) for v in values for owned, marks in (("1", filled[1]), ("2", filled[3]))]
    hands = [Step(f"sw x5,{4 + at}(x0)", (*known(("reg 5", handed), shared(queue, "0", "2")), *marks), (f"leaf {handed}",))
             for at in (0,) for handed in ("0", "1", "2", "1*0") for marks in filled]
    yield 200, 0, [*stores, *hands, *(Step("amoswap.w x7,x5,(x6)", (*known(("reg 5", v), ("reg 6", place), shared(queue, "0", "2")), *filled[3]))
                                 for v in values for place in ("12", "16", "14", "300", "4"))]
    yield 312, 1, [Step(f"{op} x7,{offset}(x5)", known(("reg 5", place), shared(queue, own, owned)))
              for op in LOADS for offset in (0, 1, 2, 4, 8) for place, own in (("12", "0"), ("20", "0"), ("12+8*0", "1*0"), (None, "0"))
              for owned in ("0", "1", "2")] + [Step(f"{op} x6,{place}(x0)", known(shared(queue, "0", "2"))) for op in STORES for place in (11, 12, 27, 28)]


# the bytes of tags, how they tell, and how the four of them open
TELLS = ((1, "zero", (0, 0, 0, 0)), (4, "zero", (0, 0, 0, 0)), (4, "number", (0, 1, 2, 3)), (1, "bits 3 0 1", (4, 0, 4, 0)), (2, "bits 192 128 0", (128,) * 4),
         (4, "bits 2147483649 1 2147483648", (1,) * 4), (1, "phases 129 0 1 129 128", (0,) * 4), (2, "phases 32769 1 0 32769 32768", (1,) * 4))


def tags(_draw):
    """Tags that a hart loads and stores, and slots with them, whole or not."""
    for hart, (width, tells, opens) in itertools.product(range(2), TELLS):
        counts = (("0", "0"), ("0", "1"), ("3", "1"), ("4", "2"), ("7", "0"), ("1*0", "1"))
        places = [f"{12 + 8 * slot + 4}" for slot in range(4)] + ["16+8*0", "17", "12"]
        steps = [Step(f"{op} x7,0(x5)", known(("reg 5", place), shared(0, own, owned))) for op in LOADS for place in places for own, owned in counts]
        steps += [Step(f"{op} x6,0(x5)", known(("reg 5", place), ("reg 6", v), shared(0, own, owned)))
                  for op in STORES for place in places for own, owned in counts[1:4] for v in ("0", "1", "4", "5", "128", "129", "2+1*0", "1*1", "&3:1", None)]
        steps += [Step(f"{op} x7,x6,(x5)", known(("reg 5", "16"), ("reg 6", v), shared(0, "0", "1")))
                  for op in ("amoswap.w", "amoadd.w", "amoor.w") for v in ("0", "1")]
        words = {16 + 8 * slot: word for slot, word in enumerate(opens)}
        yield Setting((f"tagged 0 1 12 4 8 4 {width} {tells} 0",), (("share 0 0 0",),) * 2, words), 80, hart, steps


def twice(step):
    """The same where what is owned of queue 0 is so of queue 1."""
    return step._replace(known=(*step.known, *(f"share 1 {line.removeprefix('share 0 ')}" for line in step.known if line.startswith("share 0 "))))


def settings(draw):
    """Each setting with how many of its steps are tried, a hart, and its steps."""
    six = Setting(QUEUES, tuple(tuple(f"share {i} 0 {0 if hart else int(line.split()[9])}" for i, line in enumerate(QUEUES)) for hart in range(2)), OPENS)
    for each in (computing, own_words, moves, looks, slots, splits):
        for made in each(draw):
            yield six, *made
    # a queue with fields: alone, after and before one without, before one of the same slots with a field of its own, and with another's head in a slot
    its, beside = ("queue 0 1 4 8 4 12 2 8 2 0 1 0 4294967296 0", *FIELDS), "queue 0 1 64 68 4 72 2 8 2 0 1 0 4294967296 0"
    of_its_slots, in_a_slot = (beside.replace(" 72 ", " 12 "), "field 0 2 0 1 99"), beside.replace(" 64 ", " 16 ")
    for queue, queues_there in ((0, its), (1, (beside, *its)), (0, (*its, beside)), (0, (*its, *of_its_slots)), (0, (*its, in_a_slot))):
        number = sum(line.startswith("queue ") for line in queues_there)
        setting = Setting(queues_there, tuple(tuple(f"share {i} 0 {owned}" for i in range(number)) for owned in (2, 0)), {})
        for tried, hart, steps in fields(queue):
            yield setting, tried, hart, [twice(step) for step in steps] if of_its_slots[0] in queues_there else steps
    yield from tags(draw)


def rows(part=1):
    """Each text with a certificate, the options, and nothing that a line of the answer must have; of the steps one in `part`."""
    draw = random.Random(1)
    for setting, number, hart, steps in settings(draw):
        yield from Made(setting, hart, draw.sample(steps, min(number // part, len(steps))), draw).rows(1 + number // part // MORE)
