"""Abstract states, and what tools/reference/certificates.py makes of their values: numbers, compares and operations.

A question that has one answer for some numbers of a variable and another for others is answered by `Split`.
"""

from bisect import bisect_left
from typing import NamedTuple

import certificates as reference

from . import handed
from .forms import SIZE, Bits, Form, Split, Word, bounds, form, has_word, number, numbers_of
from .layouts import Layout, Spreads

ZERO = number(0)
EQUALS = ("beq", "bne")
# up to this many numbers of a variable are tried one by one; up to the second number where few instructions ask for that
MOST_TRIED, FEW_TRIED = 4200, 64
# masks up to here leave a number of which the range is known
MOST_MASK = 1 << 16


class Parts(Exception):
    """Of a queue of which code asks for the position's remainder by a number that divides the slots, the queue and that number."""

    def __init__(self, which, part):
        super().__init__(which, part)
        self.which, self.part = which, part


class Share(NamedTuple):
    """What a state says of a queue of which its hart is a party: the own count if it is known, bounds of the count modulo the period, of
    how many positions are owned, and of the turn of the slots that the own position is in, of those that an index counts. Of a queue with tags
    the bounds of what is owned are one number, and at least so many are."""

    count: object
    first: int
    last: int
    low: int
    high: int
    begin: int = 0
    end: int = 0


class State(NamedTuple):
    pc: int
    registers: tuple
    words: tuple      # of the hart's own words, in the order of `Program.kept`
    shares: tuple     # a Share for each queue, or None where the hart is no party
    others: tuple     # the ranges of the variables ("z", k)
    handed: tuple = ()  # and of the variables ("w", k)
    is_apart: bool = False  # whether a branch just told what a value is, which is kept up to the next one
    done: tuple = ()  # of each queue what is done of its records (done.py), where states are told apart by that


class Values:
    """What is known of the values of a hart's states."""

    def __init__(self, queues, hart, loosens=True):
        # whether sums of words are taken by remainders at once, or only where no split makes a word a form
        self.loosens = loosens
        # the names of what a way says (certify_parts/harts.py) on which it depended so far what is known
        self.depends = set()
        self.queues, self.parties = queues, [queue.party(hart) for queue in queues]
        self.known_ranges, self.spreads, self.answers, self.by_positions = {}, Spreads(queues), {}, {}
        # the queues as the second implementation has them, and those with indices
        self.asked = [queue.asked() for queue in queues]
        self.indexed = [queue for queue in self.asked if isinstance(queue, reference.Queue)]
        # whether some bits of a tag tell, which the others are stored beside
        self.tells_by_bits = any(queue.has_tags and queue.has_bits() for queue in queues)

    def ranges(self, state):
        """The range of each variable that has one; not to be changed."""
        key = state.shares, state.others, state.handed
        found = self.known_ranges.get(key)
        if found is None:
            found = self.known_ranges[key] = self.ranges_anew(state)
        return found

    def ranges_anew(self, state):
        found = {("z", which): limits for which, limits in enumerate(state.others)} | {("w", which): limits for which, limits in enumerate(state.handed)}
        for which, share in enumerate(state.shares):
            if share:
                found["A", which], found["p", which], found["t", which] = (share.low, share.high), (share.first, share.last), (share.begin, share.end)
                if self.queues[which].has_tags:
                    # more may be owned
                    del found["A", which]
                if share.count is not None:
                    found["n", which] = share.count, share.count
        return found

    def known(self, value, state):
        """The number that a value is, or None."""
        if value is None or isinstance(value, Bits):
            return None
        return value.constant if isinstance(value, Form) and not value.terms else self.known_in(value, self.ranges(state))

    def known_in(self, value, ranges):
        """The number that a value is where its variables have these ranges, or None."""
        if isinstance(value, Bits):
            return None
        if isinstance(value, Form):
            found = bounds(value, ranges)
            return found[0] % SIZE if found and found[0] == found[1] else None
        # a word whose count is known up to the modulus; what a signed load leaves of one counts as no number
        found = None if value.is_signed else bounds(self.by_position(value.count, value.queue), ranges, True)
        return self.queues[value.queue].word(found[0]) % SIZE if found and found[0] == found[1] else None

    def position(self, which):
        """The own position, modulo the index's modulus where turns are told apart."""
        queue = self.queues[which]
        return form(0, {("p", which): 1, ("t", which): queue.period() if queue.turns() > 1 else 0})

    def by_position(self, value, which):
        """A form in which the position stands for the own count, where it is the same modulo the index's modulus."""
        found = self.by_positions.get((value, which))
        if found is None:
            is_put = dict(value.terms).get(("n", which)) == 1 and self.queues[which].has_known_words()
            found = self.by_positions[value, which] = value.put(("n", which), self.position(which)) if is_put else value
        return found

    def split_to_know(self, value, state, most=MOST_TRIED):
        """Asks for the split that makes a value a number, if a few numbers of its variables are all that is open."""
        if isinstance(value, Word) and (value.is_signed or not self.queues[value.queue].has_known_words()):
            return
        if state.handed and has_word(value):
            return
        terms, ranges = value.terms if value is not None else (), self.ranges(state)
        open_ones = [(ranges[variable][1] - ranges[variable][0], variable) for variable, _ in terms
                     if variable in ranges and ranges[variable][0] < ranges[variable][1]]
        closed = all(variable in ranges or isinstance(value, Word) and variable == ("n", value.queue) for variable, _ in terms)
        if closed and open_ones and min(open_ones)[0] <= most:
            variable = min(open_ones)[1]
            raise Split(variable, ranges[variable][0], True)

    # ---- what the second implementation makes of values

    def layout(self, ranges, values, keeps=False):
        """The variables of these values; those that are one number only where it keeps them."""
        return Layout(self.spreads, ranges, self.spreads.variables(values), keeps)

    def once(self, question, values, answer):
        """The answer to a question about these values, by the ranges of their variables, each asked for once."""
        found = self.answers.get(question)
        if found is None:
            found = self.answers[question] = {}, self.spreads.variables(values)
        known, variables = found

        def asked(ranges):
            key = tuple([ranges.get(variable) for variable in variables])
            if key not in known:
                known[key] = answer(ranges)
            return known[key]

        return asked

    def split_for(self, answer, values, state, most=MOST_TRIED):
        """Asks for the split of an open variable of these values after which there is an answer for most of its numbers, where `answer` is None for
        all that these ranges allow; one by one where several tell it."""
        ranges = self.ranges(state)
        layout = self.layout(ranges, values)
        limits = {variable: ranges[variable] for variable, each in zip(layout.places, layout.most) if each is not None}
        if state.handed and any(map(has_word, values)):
            return
        for variable in sorted(limits, key=lambda each: (each[0] != "t", limits[each][1] - limits[each][0], each)):
            first, last = limits[variable]
            if variable[0] != "t" and last - first > most:
                continue
            if answer({**ranges, variable: (first, first)}) is not None:
                numbers = range(first + 1, last)
                raise Split(variable, first + bisect_left(numbers, True, key=lambda at: answer({**ranges, variable: (first, at)}) is None))
            if variable[0] == "t" and answer({**ranges, variable: (last, last)}) is not None:
                numbers = range(first, last - 1)
                raise Split(variable, first + bisect_left(numbers, True, key=lambda at: answer({**ranges, variable: (at + 1, last)}) is not None))

        def closed(but=None):
            return answer({**ranges, **{variable: (low, low) for variable, (low, _) in limits.items() if variable != but}})

        if len(limits) > 1 and closed() is not None:
            opened = [variable for variable in limits if closed(variable) is None] or limits
            variable = min(opened, key=lambda each: (limits[each][1] - limits[each][0], each))
            if limits[variable][1] - limits[variable][0] <= most:
                raise Split(variable, limits[variable][0], True)

    # ---- compares

    def compared(self, op, x, y, state):
        """Whether a branch is taken: True, False or None where it isn't known; asks for a split where one would tell."""
        if x is None or y is None:
            return None
        a, b = self.known(x, state), self.known(y, state)
        if a is not None and b is not None:
            return reference.TAKEN[op](a, b)
        if op not in EQUALS:
            x, y = self.as_form(x, state), self.as_form(y, state)
        elif isinstance(x, Form) and isinstance(y, Form):
            x, y = x.minus(y), ZERO

        def answer(ranges):
            layout = self.layout(ranges, (x, y))
            return reference.is_branch_taken(self.indexed, layout.most, op, *(
                reference.plain(self.indexed, layout.most, layout.value(value)) for value in (x, y)))

        answer = self.once((op, x, y), (x, y), answer)
        found, words = answer(self.ranges(state)), [value for value in (x, y) if isinstance(value, Word) and not value.bits]
        if found is not None:
            return found
        if state.handed and (has_word(x) or has_word(y)):
            handed.split_compare(op, x, y, state)
        elif words and op not in EQUALS:
            for value in (x, y):
                if self.known(value, state) is None:
                    self.split_to_know(value, state)
        elif len({word.queue for word in words}) < 2:
            self.split_for(answer, (x, y), state)
        return None

    # ---- operations

    def computed(self, op, x, y, state):
        """What an operation makes of two values, or of one and a number: a value, and the range of a new variable where it stands for ("z", new)."""
        is_immediate, given = isinstance(y, int), y
        name, y = (("sltu" if op == "sltiu" else op[:-1]), number(y)) if is_immediate else (op, y)
        a, b = self.known(x, state), self.known(y, state)
        if a is not None and b is not None:
            return number(reference.COMPUTED[name](a, b)), None
        if name in ("add", "sub") and isinstance(x, Form) and isinstance(y, Form):
            return x.plus(y) if name == "add" else x.minus(y), None
        tells = isinstance(x, Bits) or isinstance(y, Bits)
        if not tells:
            x, y = (number(found) if isinstance(value, Word) and found is not None else value for value, found in ((x, a), (y, b)))
            if op == "addi" and given == 0:
                return x, None
            if name in ("slt", "sltu"):
                answer = self.compared("blt" if name == "slt" else "bltu", x, y, state)
                return (None, (0, 1)) if answer is None else (number(int(answer)), None)
            x, y = self.as_form(x, state), self.as_form(y, state)
            if name in ("add", "sub") and isinstance(x, Form) and isinstance(y, Form):
                return x.plus(y) if name == "add" else x.minus(y), None
        is_handed = state.handed and (has_word(x) or has_word(y))
        if is_handed and name not in ("and", "srl"):
            return None, None

        def made(ranges):
            layout = self.layout(ranges, (x, y), True)
            v, w = self.operand(layout, x), given if is_immediate else self.operand(layout, y)
            return layout, (v, w), self.result(op, layout.most, v, w)

        def is_exact(result):
            return not result.most and isinstance(result.value, (reference.Linear, *[reference.HasBits] * (tells or self.tells_by_bits)))

        made = self.once((op, x, y), (x, y), made)
        layout, values, result = made(self.ranges(state))
        if not (is_exact(result) or tells or is_handed or name in ("add", "sub") or op == "slli"):
            value, v, n = (x, values[0], b) if a is None else (y, values[1], a)
            most, by, modulus = self.tried(op, value, v, n, state)
            if modulus:
                self.part_positions(value, by, modulus)
            self.split_for(lambda ranges: True if is_exact(made(ranges)[2]) else None, (x, y), state, most)
        value, fresh = layout.found(result, len(state.others))
        if fresh and (name == "and" and fresh[1] >= MOST_MASK or name == "srl" and is_handed):
            return None, None
        return (None if isinstance(value, Bits) and not (tells or self.tells_by_bits) else value), fresh

    def operand(self, layout, value):
        """A value as it is used, as the second implementation has it."""
        known = None if value is None else self.known_in(value, layout.ranges)
        return reference.plain(self.indexed, layout.most, layout.value(value if known is None else number(known)))

    def result(self, op, most, v, w):
        if op in reference.IMMEDIATES:
            return reference.of_immediate(self.indexed, most, op, v, w)
        return (reference.of_shift if op in reference.SHIFTS else reference.of_registers)(self.indexed, most, op, v, w)

    def tried(self, op, value, v, n, state):
        """Of how many numbers of a variable some are parted so that an operation on a value, and a number, tells more; and where it leaves the
        remainder of a multiple, of what and by what, else nothing."""
        rest, by, modulus = reference.rest_of(self.indexed, v), 1, None
        if op == "srli":
            by, modulus = 1 << n, 1 << 32 - n
        elif op in ("and", "andi") and n and (n + reference.lowest(n)) & n == 0:
            by, modulus = reference.lowest(n), n // reference.lowest(n) + 1
        if modulus and rest and rest.by % (by * modulus) == 0 and reference.is_same(0, rest.form, reference.times(by, reference.without(by, rest.form))):
            return MOST_TRIED, by, modulus
        limits = op == "srli" and isinstance(value, Form) and numbers_of(value, self.ranges(state))
        # what is small enough is 0 after it
        if limits and limits[0] >> n == 0 < limits[1] >> n or isinstance(value, Word) and op not in ("and", "andi"):
            return MOST_TRIED, 1, None
        return 1 if op in ("xor", "xori") else FEW_TRIED, 1, None

    def part_positions(self, value, by, modulus):
        """Asks for a search in which a position is told by its remainder and the rest, where else it would be split at each multiple."""
        for (kind, which), m in value.terms if isinstance(value, Form) else ():
            if kind in "np" and m // by % modulus == 1 and not self.queues[which].has_tags and self.queues[which].may_be_parted(modulus):
                raise Parts(which, modulus)

    # ---- words by their remainders

    def as_form(self, value, state, splits=True):
        """A word as a form, as the check takes it where it is one; where the search says so, after splits, unless none are asked for; else what
        it was."""
        if not isinstance(value, Word) or value.is_signed:
            return value
        is_asked = splits and self.queues[value.queue].has_known_words()
        found = self.form_of(value, state, False)
        if found is None and is_asked and all(
                variable in self.ranges(state) for variable in self.by_position(value.count, value.queue).variables()):
            self.depends.add("loosens")
            if not self.loosens:
                self.form_of(value, state, True)
        return value if found is None else found

    def form_of(self, value, state, splits):
        """A word of an index as a form, after splits if these are asked for; or None."""
        def form_in(ranges):
            layout = self.layout(ranges, (value,), True)
            found = reference.plain(self.indexed, layout.most, layout.value(value))
            return layout.form_found(reference.lifted(found.form)) if isinstance(found, reference.Linear) else None

        form_in = self.once(value, (value,), form_in)
        found = form_in(self.ranges(state))
        if found is None and splits:
            self.split_for(form_in, (value,), state)
        return found
