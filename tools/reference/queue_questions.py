"""What may be asked of an accepted certificate besides the protocol (docs/progress.md): whether a queue's sender writes bytes of its records, and
its receiver reads them, or at most once, whether a hart is never stopped, which bytes it writes, and which bytes harts share. By the definitions of crates/records_written/specs and of
crates/hart_safety/specs.
"""

import re

import certificates
import tags
from certificates import ANY, LOADS, STORES, TAKEN, M32, Linear

WORDS = 4096
CALLS = (1, 2, 3, 93)
EVERY_BYTE = "all"
ITEM = re.compile(r"([0-9]{1,4})(?:-([0-9]{1,4}))?")


# ---- bytes, as the command line and the lines name them

def ranges_named(text):
    """The first and the last offset of each item of a text as `0-3,8`; None where it is no such text."""
    found = [ITEM.fullmatch(item) for item in text.split(",")]
    ranges = [(int(each[1]), int(each[2] or each[1])) for each in found if each]
    return ranges if len(ranges) == len(found) and all(first <= last for first, last in ranges) else None


def names_bytes(text):
    return text == EVERY_BYTE or ranges_named(text) is not None


def bytes_named(text, width):
    """The bytes that it names of a record of this width, as ranges of offsets in order."""
    ranges = [(0, width)] if text == EVERY_BYTE else ranges_named(text)
    return joined((first, min(last, width - 1)) for first, last in ranges if first < width)


def without(ranges, first, last):
    """The same without the bytes of a range."""
    parts = [part for low, high in ranges for part in ((low, min(high, first - 1)), (max(low, last + 1), high))]
    return [[low, high] for low, high in parts if low <= high]


def joined(ranges):
    """Ranges in order, with a byte between each and the next, that have the bytes of these."""
    found = []
    for first, last in sorted(ranges):
        if found and first <= found[-1][1] + 1:
            found[-1][1] = max(found[-1][1], last)
        else:
            found.append([first, last])
    return found


def bytes_text(ranges):
    """`byte 2`, or `bytes 0-3, 8 and 12`, and whether it is one."""
    each = [str(first) if first == last else f"{first}-{last}" for first, last in ranges]
    is_one = len(each) == 1 and "-" not in each[0]
    return f"byte{'s'[is_one:]} {' and '.join(filter(None, (', '.join(each[:-1]), each[-1])))}", is_one


# ---- what a queue's party does to its queue

def counts(instruction, sends):
    """What it makes of a record's bytes counts: of a sender's AMOs only a swap's, since the word that another writes may be the one that it read;
    and of a receiver's loads and AMOs only those whose result doesn't go to x0."""
    op, *parts = instruction
    if sends:
        return op == "amoswap" or not op.startswith("amo")
    return parts[0] != 0



class Party:
    """A queue's sender, which writes the records that it publishes, or its receiver, which reads those that it takes: the leaves of its states, of
    each what it does, the states to which it leads, and whether it would hand over all that it owns. Queues with tags are numbered on after those with
    indices."""

    def __init__(self, opening, listed, index, sends):
        self.index, self.before, self.sends = index, len(listed.queues), sends
        self.queue = (*listed.queues, *listed.tagged)[index].queue
        self.hart = self.queue.sender if sends else self.queue.receiver
        self.tags, self.part = tags.tags_of(listed, self.hart), certificates.part_of(listed, self.hart)
        self.steps = certificates.steps_of(listed, self.hart)
        self.code = opening.harts[self.hart][0]
        self.leaves = [[(self.does(known, leaf.handed), [arrow.to for arrow in leaf.arrows], self.is_all(known, leaf.handed))
                        for known, leaf in certificates.leaves(state.known, state.cases)] for state in self.part.states]

    def does(self, known, handed):
        """("accesses", position, offset, width), of the positions from its count on: the sender stores, and the receiver loads; ("hands", n), it
        publishes or takes exactly n; ("some", n), at most, or nobody knows how many; or nothing."""
        instruction = certificates.instruction_at(self.code, known.pc)
        access = self.steps.accessed(known, instruction)
        if not access:
            return None
        place, bounds, width, loads, stores = access
        if stores and self.index >= self.before:
            if self.tags.moved_tag(known, place, width) == self.index - self.before:
                return "hands", 1
        elif stores and certificates.last_below(self.before, lambda at: self.steps.is_own_index(bounds, width, at)) == self.index:
            most = certificates.most(known.ranges, handed)
            return ("hands" if most == handed.constant else "some"), most
        share = self.steps.share_at(known, self.index)
        if not (stores if self.sends else loads) or not counts(instruction, self.sends) or not certificates.is_owned(known.ranges, self.queue, share, place, width):
            return None
        return ("accesses", certificates.position_at(self.queue, share.own.constant, place.form.constant),
                certificates.offset_at(self.queue, place.form.constant), width)

    def is_all(self, known, handed):
        return self.index < self.before and certificates.is_same(0, handed, self.steps.share_at(known, self.index).owned)

    @staticmethod
    def after(marked, does, byte):
        """The positions from the count on of which this byte is written, or read, after it, of those of which it was before; None is all."""
        kind, *numbers = does or ("nothing",)
        if kind == "some":
            return set()
        if marked is None or kind == "nothing":
            return marked
        if kind == "hands":
            return {position - numbers[0] for position in marked if position >= numbers[0]}
        position, offset, width = numbers
        return marked | {position} if offset <= byte < offset + width else marked

    def marked(self, byte):
        """At each state the positions of which this byte is surely written, or read: all at first, and less until each leaf leads into what it
        leaves."""
        found = [set() if n == self.part.first else None for n in range(len(self.leaves))]
        changed = True
        while changed:
            changed = False
            for n, leaves in enumerate(self.leaves):
                for does, targets, _ in leaves:
                    left = self.after(found[n], does, byte)
                    for to in targets:
                        if left is not None and (found[to] is None or not found[to] <= left):
                            found[to] = left if found[to] is None else found[to] & left
                            changed = True
        return found

    def bytes_apart(self, mask):
        """The lowest bytes of the mask's parts that no access's end parts further: what holds of one holds of its part."""
        accesses = [does[2:] for leaves in self.leaves for does, *_ in leaves if does and does[0] == "accesses"]
        ends = {end for offset, width in accesses for end in (offset, offset + width)}
        return sorted({first for first, _ in mask} | {end for end in ends if any(first <= end <= last for first, last in mask)})

    @staticmethod
    def open_position(leaves, marked):
        """The first position that these leaves may hand over and that isn't marked; None where all of them are."""
        if marked is None:
            return None
        handed = [does[1] for does, *_ in leaves if does and does[0] in ("hands", "some")]
        position = next(position for position in range(len(marked) + 1) if position not in marked)
        return position if None in handed or any(position < count for count in handed) else None

    def missing(self, mask):
        """The first state that may hand over a record of which a byte isn't surely written, or read, with the lowest such byte of the first such
        position; or None."""
        marks = [(byte, self.marked(byte)) for byte in self.bytes_apart(mask)]
        for n, leaves in enumerate(self.leaves):
            found = [(self.open_position(leaves, marked[n]), byte) for byte, marked in marks]
            found = [each for each in found if each[0] is not None]
            if found:
                return n, min(found)[1]
        return None

    @staticmethod
    def closed_by(is_all, does, byte, closed):
        """Of how many positions from the count on this byte isn't to be read any more after it, of as many before: it was, or that of a later one was."""
        kind, *numbers = does or ("nothing",)
        if kind == "accesses":
            position, offset, width = numbers
            return max(closed, position + (offset <= byte < offset + width))
        if kind == "hands":
            return 0 if is_all else max(0, closed - numbers[0])
        return 0 if kind == "some" else closed

    @staticmethod
    def is_again(does, byte, closed):
        """It may read one of those, or nobody knows how many it hands over."""
        kind, *numbers = does or ("nothing",)
        return kind == "some" or kind == "accesses" and numbers[1] <= byte < numbers[1] + numbers[2] and numbers[0] < closed

    def closed(self, byte):
        """At each state how many positions are closed: none at first, and more until each leaf leads into what it makes."""
        found, changed = [0] * len(self.leaves), True
        while changed:
            changed = False
            for n, leaves in enumerate(self.leaves):
                for does, targets, is_all in leaves:
                    for to in targets:
                        if (after := self.closed_by(is_all, does, byte, found[n])) > found[to]:
                            found[to], changed = after, True
        return found

    def again(self, mask):
        """The first state that may read a byte again, or one of an earlier record than it read, with the lowest such byte; or None."""
        closed = [(byte, self.closed(byte)) for byte in self.bytes_apart(mask)]
        return next(((n, byte) for n, leaves in enumerate(self.leaves) for byte, at in closed if any(self.is_again(does, byte, at[n]) for does, *_ in leaves)), None)


# ---- harts

def is_within_memory(place, bounds, width):
    aligned = isinstance(place, Linear) and certificates.is_same(width, place.form, certificates.number(0))
    return aligned and bounds.high < 4 * WORDS


class Hart:
    def __init__(self, opening, listed, hart):
        self.code, self.steps = opening.harts[hart][0], certificates.steps_of(listed, hart)
        self.leaves = [(n, known) for n, state in enumerate(certificates.part_of(listed, hart).states) for known, _ in certificates.leaves(state.known, state.cases)]

    def goes_on(self, known):
        """The hart's next instruction doesn't stop it, if it has one."""
        if known.pc == 4 * len(self.code):
            return True
        instruction = certificates.instruction_at(self.code, known.pc)
        if instruction is None or instruction[0] == "ebreak":
            return False
        op, *parts = instruction
        if op == "ecall":
            number = certificates.plain(self.steps.queues, known.ranges, certificates.get_or(known.registers, 17, ANY))
            return certificates.as_number(number) in CALLS
        if op == "jal" or op in TAKEN:
            return (known.pc + parts[-1]) % M32 % 4 == 0
        if op == "jalr":
            base = certificates.as_number(self.steps.operand(known, parts[1]))
            return base is not None and (base + parts[2]) % M32 // 2 * 2 % 4 == 0
        access = self.steps.accessed(known, instruction)
        return access is None or is_within_memory(*access[:3])

    def stop(self):
        return next((n for n, known in self.leaves if not self.goes_on(known)), None)

    def touches(self, stores):
        """Of each leaf that stores its state, or of each that loads, and the first and the last byte where it may, or None."""
        for n, known in self.leaves:
            access = self.steps.accessed(known, certificates.instruction_at(self.code, known.pc))
            if access and access[4 if stores else 3]:
                bounds = certificates.bounds(known.ranges, access[0])
                yield n, bounds and (bounds.low, bounds.high + access[2] - 1)

    def anywhere(self, stores):
        """The first state with a store, or a load, that may go anywhere."""
        return next((n for n, where in self.touches(stores) if where is None), None)

    def touched(self, stores):
        return joined(where for _, where in self.touches(stores) if where)


def common(ranges, others):
    """The bytes of both."""
    return [(max(first, low), min(last, high)) for first, last in ranges for low, high in others if max(first, low) <= min(last, high)]


def shared(harts):
    """The bytes to which a hart may store, and to which another may store, or which it may load; and else the first hart and state with such an access
    that may go anywhere."""
    for number, hart in enumerate(harts):
        for stores in (True, False):
            if (state := hart.anywhere(stores)) is not None:
                return None, (number, state)
    stored, touched, found = [], [], []
    for hart in harts:
        stores = hart.touched(True)
        touches = joined([*stores, *hart.touched(False)])
        found += common(stores, touched) + common(touches, stored)
        stored, touched = joined([*stored, *stores]), joined([*touched, *touches])
    return joined(found), None
