"""What is sent: fields of a queue's records, of which the receiver's loads are known numbers, and where these are right ahead of a sender's count.

Fields are sought only where a hart isn't covered without. At first no record is sent, and each round takes in what the stores to slots
may store, until nothing new is stored: so numbers may go there and come back by another queue. Of a field the marks are those alone that a
store of the head may need. Like the whole search this is trusted with nothing.
"""

from functools import partial
from math import gcd
from typing import NamedTuple

from .forms import Form, numbers_of, signed, variable_of
from .harts import Harts
from .live import address_parts, following_of, lived
from .steps import LOAD, STORE, Matters, Refused, leaves

# in so many rounds the numbers of a part may grow
MOST_GROWN = 12
# positions ahead of a count of which a certificate may say something
MOST_POSITIONS = 64
# a value is forgotten that is made of more numbers than these, so that a sum of what is received doesn't go on and on
MOST_NUMBERS = 2


class Part(NamedTuple):
    """Bytes of each record of a queue."""

    which: int
    at: int
    width: int


class Numbers(NamedTuple):
    """low, low + step .. high."""

    low: int
    step: int
    high: int

    def joined(self, other):
        step = gcd(self.step * (self.low < self.high), other.step * (other.low < other.high), self.low - other.low)
        return Numbers(min(self.low, other.low), step or 1, max(self.high, other.high))

    def count(self):
        return (self.high - self.low) // self.step

    def has(self, other):
        return self.joined(other) == self


def numbers_stored(program, value, state, width):
    """The numbers that a value may be, or None where they aren't known or don't fit the bytes."""
    found, ranges = program.known(value, state), program.ranges(state)
    low, high = (found, found) if found is not None else isinstance(value, Form) and numbers_of(value, ranges) or (0, 256 ** width)
    if high >= 256 ** width:
        return None
    step = gcd(*(signed(m) for variable, m in value.terms if ranges[variable][0] < ranges[variable][1])) if low < high else 1
    return Numbers(low, step, high)


class Log:
    """What one hart's program does to records: which parts it loads, what it stores to which, and to which slots it stores as their receiver."""

    def __init__(self):
        self.loaded, self.stored, self.spoiled = set(), {}, set()


class Records:
    """What is known of the records of all queues: of the parts that are known, which numbers are sent in them, or None as long as nothing is.
    A part that isn't here is any number; while it seeks, nothing is sent in it at first."""

    def __init__(self, numbers=None, seeks=False):
        self.numbers, self.seeks = dict(numbers or {}), seeks
        self.lost, self.grown = set(), {}

    def lose(self, part):
        """Of a part nothing is known after all."""
        self.lost.add(part)
        self.numbers.pop(part, None)

    def known(self):
        """All that is known, as one value."""
        return frozenset(self.numbers.items()), frozenset(self.lost)

    def given(self, part):
        """What a load of a part is told: None as long as nothing is sent, its numbers, or () where these aren't known."""
        return () if part in self.lost else self.numbers.get(part)

    def take(self, part, numbers, is_lost):
        """Takes in which numbers its sender stores to a part: () where it stores none yet, and None where they aren't known."""
        old = self.numbers.setdefault(part, None)
        if is_lost or numbers is None:
            self.lose(part)
        elif numbers and not (old and old.has(numbers)):
            self.numbers[part] = old.joined(numbers) if old else numbers
            self.grown[part] = self.grown.get(part, 0) + 1
            if self.grown[part] > MOST_GROWN:
                self.lose(part)

    def fields(self, which):
        """The parts of a queue with their numbers, in order."""
        return sorted((part, numbers) for part, numbers in self.numbers.items() if part.which == which and numbers)

    def lines(self, which):
        """The lines of a queue's fields."""
        return [" ".join(map(str, ("field", part.at, part.width, numbers.low, numbers.step, numbers.count()))) for part, numbers in self.fields(which)]

    # ---- what a program asks

    def begin(self, program):
        program.log, program.address_loads = Log(), address_loads(program.code, program.needed.matters)

    def received(self, program, state, place, width, is_signed):
        """What a load leaves in its register if it is of a record of which something is known: a value and the range of a new variable; or None.
        () where nothing is sent yet, so that the hart doesn't go on from there."""
        low, high = program.limits(place, state)
        for which, (queue, party) in enumerate(zip(program.queues, program.parties)):
            if party == 1 and not queue.has_tags and queue.slots <= low and high + width <= queue.slots + queue.size * queue.width:
                if state.pc not in program.address_loads or not program.owns(which, place, width, state):
                    return None
                part = Part(which, program.positions(which, place, 1, state)[1], width)
                program.log.loaded.add(part)
                if part not in self.numbers:
                    return () if self.seeks and part not in self.lost else None
                return self.as_loaded(self.numbers[part], part, state, is_signed)
        return None

    @staticmethod
    def as_loaded(numbers, part, state, is_signed):
        """What a load of numbers leaves in a register, as `received` says it."""
        if numbers is None:
            return ()
        if is_signed and part.width < 4 and numbers.high >= 256 ** part.width // 2:
            return None
        return variable_of("z", len(state.others), numbers.step, numbers.low), (0, numbers.count())

    def stores(self, program, which, state, place, width, value):
        """Takes down what is stored to a slot."""
        if program.parties[which]:
            program.log.spoiled.add(which)
            if self.fields(which) and not self.seeks:
                raise Refused(state.pc, "a store to a slot by the receiver, of which the sender says what its records hold")
            return
        _, offset = program.positions(which, place, 1, state)
        for part in self.numbers:
            if part.which != which or part.at + part.width <= offset or offset + width <= part.at:
                continue
            if state.pc not in program.needed.matters:
                raise Matters({state.pc})
            is_whole = (part.at, part.width) == (offset, width) and program.code[state.pc // 4] & 127 == STORE
            numbers = numbers_stored(program, value, state, width) if is_whole else None
            old = program.log.stored.get(part, numbers)
            program.log.stored[part] = old and numbers and old.joined(numbers)
            if program.wants_all and not program.log.stored[part]:
                raise Refused(state.pc, "a store of a number that isn't known to a field of a record")

    def are_shown(self, program, search):
        """Whether all numbers that a hart stores to parts are known; and where nothing more is sought, its fields are right."""
        if None in program.log.stored.values():
            return False
        try:
            return self.seeks or marked(program, search) is not None
        except Unshown:
            return False

    @staticmethod
    def forgotten(value):
        """The value, or None if it is made of too many numbers."""
        return None if isinstance(value, Form) and sum(kind == "z" for kind, _ in value.variables()) > MOST_NUMBERS else value


def slot_store(program, which, state):
    """Of a store to a queue's slots: position and offset, the bytes, and the value as far as it is known; or None."""
    access = program.accessed(state)
    if not access or not access.stores:
        return None
    (low, high), queue = program.limits(access.place, state), program.queues[which]
    is_of_slots = queue.meets_slots(low, high - low + access.width)
    return (program.positions(which, access.place, 1, state), access.width, access.value) if is_of_slots else None


# ---- which loads are of numbers that an address may be made of

def address_loads(code, matters):
    """The places of loads whose numbers an address may be made of, or what is stored where that matters."""
    following = following_of(code)
    live = lived(code, matters, following, address_parts)
    return {4 * at for at, word in enumerate(code) if word & 127 == LOAD and any(
        word >> 7 & 31 in live[goal // 4] for goal in following[at] if goal <= 4 * len(code))}


# ---- which fields are right

class Unshown(Exception):
    """A field that isn't shown to be right at a publishing."""

    def __init__(self, which, at):
        super().__init__(which, at)
        self.which, self.at = which, at


def needed_before(program, which, leaf, following, after):
    """The marks, each a position and a field, that must stand before a leaf so that these stand after it and what it publishes is right."""
    queue, fields = program.queues[which], program.records.fields(which)
    moved = following[0].moved[which] if following else 0
    if moved:
        found = {(d, j) for d in range(moved) for j in range(len(fields))} | {(d + moved, j) for d, j in after}
        for d, j in found:
            if d >= min(queue.size, MOST_POSITIONS):
                raise Unshown(which, j)
        return found
    store = slot_store(program, which, leaf)
    if store is None:
        return after
    (position, offset), width, value = store
    found = set()
    for d, j in after:
        part, numbers = fields[j]
        if d != position or part.at + part.width <= offset or offset + width <= part.at:
            found.add((d, j))
        elif (part.at, part.width) != (offset, width) or not (stored := numbers_stored(program, value, leaf, width)) or not numbers.has(stored):
            raise Unshown(which, j)
    return found


def marks_of(program, search, which):
    """For each state that is reached the marks that it needs of a queue to which the hart sends; Unshown where some can't stand."""
    trees = {state: list(leaves(tree)) for state, tree in search.reached().items()}
    states = list(trees)
    marks, before = {state: set() for state in states}, {}
    for state in states:
        for _, _, after in trees[state]:
            for following in after:
                before.setdefault(search.covering(following.state), set()).add(state)
    todo = list(states)
    while todo:
        state = todo.pop()
        found = set()
        for _, leaf, after in trees[state]:
            found |= needed_before(program, which, leaf, after, set().union(*(marks[search.covering(each.state)] for each in after)))
        if found != marks[state]:
            marks[state] = found
            todo += before.get(state, ())
    for _, j in marks[search.covering(program.start)]:
        raise Unshown(which, j)
    return marks


def marked(program, search):
    """For each state, the lines of the marks that it needs."""
    lines = {}
    for which, party in enumerate(program.parties):
        if party == 0 and program.records and program.records.fields(which):
            for state, marks in marks_of(program, search, which).items():
                for d in sorted({d for d, _ in marks}):
                    numbers = sorted(j for other, j in marks if other == d)
                    lines.setdefault(state, []).append(" ".join(map(str, ("filled", which, d, *numbers))))
    return lines


# ---- the fields of all queues

def seek(records, found):
    """Takes in what the harts store to the parts that are loaded; returns what was found of each hart, or None of those to which something of it
    is new, and None where nothing is new at all."""
    parts = {part for hart in found for part in hart.program.log.loaded} | records.numbers.keys()
    known, asked = {part: records.given(part) for part in parts}, set(records.numbers)
    spoiled = {which for hart in found for which in hart.program.log.spoiled}
    for part in sorted(parts - records.lost):
        sender = next(hart for hart in found if hart.program.parties[part.which] == 0)
        records.take(part, sender.program.log.stored.get(part, ()), sender.refused or part.which in spoiled)
    told, asked = {part for part in parts if records.given(part) != known[part]}, records.numbers.keys() - asked

    def is_new_to(hart):
        parties = hart.program.parties
        return any(parties[part.which] == 1 for part in told) or any(parties[part.which] == 0 for part in asked)

    return [None if is_new_to(hart) else hart for hart in found] if told or asked else None


def sought(searching):
    """The fields that loads of records need and that all stores to them keep, in which ways the harts were searched, and what was found of them.
    `searching` makes the search over all harts, with what is known of records."""
    records, found = Records(seeks=True), None
    harts = searching(records)
    while True:
        after = harts.found(found)
        found = seek(records, after)
        if not found:
            return Records({part: numbers for part, numbers in records.numbers.items() if numbers}), harts.begins, after


def is_whole(records, found):
    return not any(hart.refused for hart in found) and all(records.are_shown(hart.program, hart.search) for hart in found)


def searched(searching, records, begins):
    """What is found of each hart with these fields, first in ways that served before."""
    harts = searching(records)
    harts.begins = list(begins)
    found = harts.found()
    return found if is_whole(records, found) else searching(records).found()


def kept(searching, records, begins, before):
    """What is found of each hart with these fields, less those that aren't right wherever they are published. `before` is what was found while these
    were sought."""
    # the same is found again, unless nothing is sent in a part that is loaded
    is_same = all(hart.program.log.loaded <= records.numbers.keys() | hart.program.records.lost for hart in before)
    for hart in before if is_same else ():
        hart.program.records = records
    found = before if is_same and is_whole(records, before) else None
    while True:
        found = found or searched(searching, records, begins)
        try:
            for hart in found:
                if not hart.refused:
                    marked(hart.program, hart.search)
            return found
        except Unshown as why:
            records, found = Records(records.numbers), None
            records.lose(records.fields(why.which)[why.at][0])


def needs_records(hart):
    """Whether the hart isn't covered, and loads from slots what an address may be made of."""
    return hart.refused and not hart.program.slot_loads.isdisjoint(address_loads(hart.program.code, hart.program.needed.matters))


def found_of(test, queues, clock, asked):
    """What is found of each hart: without fields, or where some hart isn't covered so, with the fields that it needs. At last comes what is asked of records
    (`Harts`)."""
    searching = partial(Harts, test, queues, clock, asked)
    harts = searching()
    found = harts.found()
    if any(map(needs_records, found)):
        records, begins, before = sought(searching)
        other = kept(searching, records, begins, before) if records.numbers else found
        if not any(hart.refused for hart in other):
            harts, found = searching(other[0].program.records), other
            harts.begins = list(begins)
    return harts.doing_all(found)
