"""What one instruction of a hart makes of an abstract state, as tools/reference has it, and what it owes to the queues.

`execute` either answers the states after the instruction, or asks by `Split` that the numbers of a variable be parted first,
or refuses by `Refused` what isn't shown to keep the protocol.
"""

from math import prod
from typing import NamedTuple

import certificates as reference

from . import handed, tags
from .forms import SIZE, Bits, Form, Split, Word, bounds, changed, form, has_word, number, numbers_of, variable_of
from .values import EQUALS, FEW_TRIED, ZERO, Share, State, Values

# the kinds of instructions, by their low seven bits
LOAD, FENCE, IMMEDIATE, AUIPC, STORE, AMO, REGISTER, LUI, BRANCH, JALR, JAL, SYSTEM = (
    0x03, 0x0F, 0x13, 0x17, 0x23, 0x2F, 0x33, 0x37, 0x63, 0x67, 0x6F, 0x73)
SIGNED_LOADS = ("lb", "lh")
# so many splits a certificate may have of a state
MOST_SPLITS = 1024
# so many positions are tried one by one in a state
BLOCK = 128


IMMEDIATES = {*reference.IMMEDIATES, *reference.SHIFTS}
OPERATIONS = IMMEDIATES | reference.COMPUTED.keys()
# what makes of a word that may be handed over another one
HANDED = ("add", "addi", "sub", "sll", "slli")


class Refused(Exception):
    """Why an instruction isn't shown to keep the protocol, and at which pc it stands; None where the search ended otherwise."""

    def __init__(self, pc, why):
        super().__init__(pc, why)
        self.pc, self.why = pc, why


class Matters(Exception):
    """Of stores that were taken for such of which the value doesn't matter, the pcs where it does: it is an index, or a word that is loaded."""

    def __init__(self, pcs):
        super().__init__(pcs)
        self.pcs = pcs


class Next(NamedTuple):
    """A state after a step, and where its variables come from: of each queue by how much the own count moved, and whether what is owned is new;
    of each ("z", k) a variable of the state before, or None where it is new; of each ("w", k) the same, and how much more than that it is."""

    state: State
    moved: tuple
    looked: tuple
    kept: tuple
    words: tuple


class Access(NamedTuple):
    """Where an instruction loads or stores, how many bytes, whether it loads, whether it stores, and what a plain store stores, as far as it is known."""

    place: object
    width: int
    loads: bool
    stores: bool
    value: object


class Program(Values):
    """One hart's code with what holds of all its states."""

    def __init__(self, test, queues, hart, kept, narrow, needed, with_bytes=False, loosens=True, records=None, opens_full=False, settles=False,
                 wants_all=False, wanted=(), by_done=False):
        self.hart, self.code = hart, test.harts[hart].code
        super().__init__(queues, hart, loosens)
        self.tagged = [(which, queue, party) for which, (queue, party) in enumerate(zip(queues, self.parties)) if queue.has_tags and party is not None]
        self.word_stores = {}    # by an own word: the pcs of its stores
        self.other_indices = [self.looked(which) for which in range(len(queues))]
        self.looks = [index for index in self.other_indices if index is not None]
        # the hart's own words, each where it lies and its bytes; and what is known of bytes and halves (certify_parts/harts.py)
        self.kept, self.narrow, self.with_bytes = kept, narrow, with_bytes
        self.at = {own: which for which, own in enumerate(kept)}
        self.parts = [(which, *own) for which, own in enumerate(kept) if own[1] < 4]
        self.asked_for = set()   # bytes and halves of which more would be known if they were kept
        self.steps = reference.Steps(self.indexed, (), hart)
        self.stored = set()    # where it may store, apart from queues: from which byte on, and up to which
        self.reads = set()     # which of `kept` it loads: of the others nothing need be known
        self.needed, self.edges = needed, {}    # edges: by a variable, the numbers after which it was parted
        # whether words of indices become forms where an instruction asks for that, and numbers that are tried one by one end no range. These are
        # tried in blocks, each in states of its own, so that a state has no more cases than a certificate may have
        self.settles = settles
        for which, queue in enumerate(queues if settles else ()):
            self.edges["p", which] = {edge - 1 for edge in range(BLOCK, queue.period(), BLOCK)}
        self.dropped = {}      # by a word: the pcs of its stores of which the value was left out
        self.unowned = {}      # by a queue: the first pc of which a load of its slots isn't shown to be of owned ones
        self.wants_all = wants_all  # whether the search ends at such a load, or where it isn't known which number is sent
        self.slot_loads = set()  # the pcs of loads of slots
        self.records = records   # what is known of records, where that is asked
        if records:
            records.begin(self)
        registers = tuple(number(test.harts[hart].registers.get(which, 0)) if which in needed.registers[0] or not which else None for which in range(32))
        words = tuple(number(test.number(*own)) for own in kept)
        # at least nothing is owned of a queue with tags, unless it is asked with all that is
        owned = [0 if queue.has_tags and not opens_full or party is None else queue.first_owned(party) for queue, party in zip(queues, self.parties)]
        shares = tuple(None if party is None else Share(queue.start, *[queue.start % queue.period()] * 2, *[first] * 2,
                                                        *[queue.start // queue.period() % queue.turns()] * 2)
                       for queue, party, first in zip(queues, self.parties, owned))
        # of each queue the bytes of a record that the hart is to write, or to read
        self.wanted = wanted
        self.start = State(0, registers, words, shares, (), done=(0,) * len(queues) if by_done else ())

    # ---- memory

    def own_index(self, which, state):
        queue = self.queues[which]
        if queue.is_linear():
            return variable_of("n", which, queue.scale, queue.base + queue.scale * queue.offset)
        word = Word(which, variable_of("n", which))
        return self.form_of(word, state, queue.has_known_words()) or word

    def other_index(self, which):
        return self.other_indices[which]

    def looked(self, which):
        """What the other's index holds just after a look, or None of a queue of which the hart is no party."""
        queue = self.queues[which]
        if self.parties[which] is None or queue.has_tags:
            return None
        count = form(-queue.known_less(self.parties[which]), {("n", which): 1, ("A", which): 1})
        return count.times(queue.scale).plus(number(queue.base + queue.scale * queue.offset)) if queue.is_linear() else Word(which, count)

    def place(self, value, state):
        """The number that a jump or an AMO asks for, or None."""
        found = self.known(value, state)
        if found is None and value is not None:
            self.split_to_know(value, state)
        return found

    def limits(self, value, state):
        """The least and the greatest address that a value may be."""
        found = self.known(value, state)
        if found is not None:
            return found, found
        if value is None or isinstance(value, Word):
            if value is not None:
                self.split_to_know(value, state)
            return 0, SIZE - 1
        found = numbers_of(value, self.ranges(state))
        if not found:
            self.split_for(lambda ranges: numbers_of(value, ranges), (value,), state)
        return found or (0, SIZE - 1)

    def positions(self, which, value, width, state, is_of_tags=False):
        """How many positions past the own count an access of slots, or of elements with tags, is of, and where in it it begins; or None."""
        queue, own, share, known = self.asked[which], variable_of("n", which), state.shares[which], self.known(value, state)
        queue = tags.reference.elements(queue) if is_of_tags else queue
        if known is not None and share.first == share.last and share.begin == share.end:
            first, offset = share.first + share.begin * self.queues[which].period(), reference.offset_at(queue, known)
            return (reference.position_at(queue, first, known), offset) if offset + width <= queue.width else None

        def found(ranges):
            layout = self.layout(ranges, (value, own))
            most, place, count = layout.most, layout.form(value, SIZE), layout.form(own)
            at, offset = reference.position_at(queue, count.constant, place.constant), reference.offset_at(queue, place.constant)
            there = reference.remainder(most, reference.plus(count, reference.number(at)), queue.size)
            return (at, offset) if offset + width <= queue.width and reference.is_slot(most, queue, place, offset, there) else None

        found = self.once((which, value, width, is_of_tags), (value, own), found)
        at = found(self.ranges(state))
        if at is None:
            position = self.position(which) if self.queues[which].period() < queue.size else variable_of("p", which)
            further = value.minus(position.times(queue.width))
            limits = bounds(further, self.ranges(state))
            if limits and limits[0] == limits[1]:
                self.split_for(found, (value, own), state, SIZE)
            elif self.cases(further, state) <= MOST_SPLITS + 1:
                self.split_for(found, (value, own), state, FEW_TRIED)
        return at

    def cases(self, value, state):
        """How many numbers the variables of a form may be, all together."""
        ranges = self.ranges(state)
        return prod(ranges[variable][1] - ranges[variable][0] + 1 for variable in value.variables() if variable in ranges)

    def owns(self, which, value, width, state):
        """Whether an access of slots is of owned ones; asks for a split where it is for some numbers."""
        share, found = state.shares[which], self.positions(which, value, width, state)
        if found is None or found[0] >= share.high:
            return False
        if found[0] >= share.low:
            raise Split(("A", which), found[0])
        return True

    def loaded(self, state, value, width, is_signed):
        """What a load reads: a value, and the queue whose other index it looked at, or None."""
        low, high = self.limits(value, state)
        for which, (queue, party) in enumerate(zip(self.queues, self.parties)):
            if party is None or not queue.meets(low, high - low + width):
                continue
            if queue.has_tags:
                tags.read_rest(self, which, state, value, width)
                return None, None
            if queue.meets_slots(low, high - low + width):
                self.slot_loads.add(state.pc)
                is_inside = queue.slots <= low and high + width <= queue.slots + queue.size * queue.width
                if not is_inside or not self.owns(which, value, width, state):
                    self.see_unowned(which, state.pc)
                    if not is_inside:
                        self.refuse_looks(state, low, high, width)
                return None, None
            if (low, high, width) == (queue.own(party), queue.own(party), queue.index_width):
                return (Word(which, variable_of("n", which), True) if self.is_negative(queue, width, is_signed) else self.own_index(which, state)), None
            if (low, high, width) == (queue.other(party), queue.other(party), queue.index_width):
                value = self.other_index(which)
                return (value._replace(is_signed=True) if self.is_negative(queue, width, is_signed) else value), which
            self.refuse_looks(state, low, high, width)
            return None, None
        return (self.own_word(state, low, width, is_signed) if low == high else None), None

    def see_unowned(self, which, pc):
        """Takes down a load of slots that isn't shown to be of owned ones."""
        self.unowned.setdefault(which, pc)
        if self.wants_all:
            raise Refused(pc, "a load of a slot that isn't known to be its own")

    @staticmethod
    def is_negative(queue, width, is_signed):
        """Whether an index that is loaded signed may come out as another number."""
        return is_signed and width < 4 and queue.base + queue.scale * (queue.modulus - 1) >= 256 ** width // 2

    def refuse_looks(self, state, low, high, width):
        """A load that may be of the other's index, whole, would move what is known."""
        for queue, party in zip(self.queues, self.parties):
            if party is not None and not queue.has_tags and width == queue.index_width and low <= queue.other(party) <= high:
                raise Refused(state.pc, "a load that may be of the other's index")

    def own_word(self, state, place, width, is_signed):
        """What a load of an own word leaves, if one lies there that has as many bytes. A byte or a half that flows to slots alone, say, needn't be known."""
        if width < 4 and not self.needed.hands and self.code[state.pc // 4] >> 7 & 31 not in self.needed.registers[state.pc // 4 + 1]:
            return None
        which = self.at.get((place, width))
        if which is None:
            if width < 4 and self.narrow.may_be_kept(place, width):
                self.asked_for.add((place, width))
            return None
        self.reads.add(which)
        if which in self.dropped:
            raise Matters(self.dropped[which])
        if self.needed.hands:
            handed.see_load(self, which, state.pc)
        return self.low_bytes(state.words[which], width, state, is_signed) if is_signed and width < 4 else state.words[which]

    def low_bytes(self, value, width, state, is_loaded=False):
        """What is known of the number that a store of `width` bytes, fewer than four, leaves of a value; or, loaded, of what a signed load leaves of it."""
        if value is None:
            return None

        def made(ranges):
            layout = self.layout(ranges, (value,), True)
            if not is_loaded:
                return layout, self.steps.stored_value(layout.most, width, self.operand(layout, value))
            op, given = next(op for op in SIGNED_LOADS if reference.LOADS[op] == width), layout.value(value)
            return layout, given if self.steps.keeps_value(layout.most, op, given) else self.steps.extended_value(op, given)

        made = self.once(("low", value, width, is_loaded), (value,), made)
        layout, found = made(self.ranges(state))
        if found is reference.ANY and isinstance(value, Form):
            self.split_for(lambda ranges: made(ranges)[1], (value,), state, FEW_TRIED)
        if found is reference.ANY:
            return None
        found, _ = layout.found(reference.just(found), None)
        return self.reduced(found) if isinstance(found, Word) and not found.bits else found

    def reduced(self, word):
        """A word without the variables of other numbers that it doesn't depend on."""
        modulus = self.queues[word.queue].modulus
        terms = [(variable, m) for variable, m in word.terms if variable[0] != "z" or SIZE % modulus or m % modulus]
        return word._replace(count=word.count._replace(terms=tuple(terms)))

    def hands_over(self, state, queue):
        """Asks for a search that knows that what a store stores is handed over by a tag."""
        if state.pc not in self.needed.matters:
            raise Matters({state.pc})
        if queue.tells == tags.ZERO and queue.party(self.hart) == 0 and state.pc not in self.needed.hands.pcs:
            raise handed.Hands({state.pc})

    @staticmethod
    def refuse(pc, why):
        raise Refused(pc, why)

    def store(self, state, value_of_place, width, value):
        """The words after a store, and by how much it moves the own count of which queue, or None."""
        low, high = self.limits(value_of_place, state)
        for which, (queue, party) in enumerate(zip(self.queues, self.parties)):
            if not queue.meets(low, high - low + width):
                continue
            if party is None:
                raise Refused(state.pc, "a store that may be to the queue, by another hart")
            if queue.has_tags:
                return state.words, tags.stored(self, which, state, value_of_place, width, value)
            if low == high and (low, width) == (queue.own(party), queue.index_width):
                if state.pc not in self.needed.matters:
                    raise Matters({state.pc})
                return state.words, (which, self.moved(which, value, state))
            if low < queue.slots or high + width > queue.slots + queue.size * queue.width:
                where = "to an address that is not known" if low < high else "to an index that isn't the own one, whole, or across an end of the slots"
                raise Refused(state.pc, f"a store {where}")
            share = state.shares[which]
            if not self.owns(which, value_of_place, width, state):
                raise Refused(state.pc, self.not_owned(queue, *bounds(self.position(which), self.ranges(state)), share.low, share.high))
            if self.records:
                self.records.stores(self, which, state, value_of_place, width, value)
            return state.words, None
        self.stored.add((low, high + width))
        if low == high:
            if (low, width) in self.narrow.inputs:
                self.asked_for.add((low, width))
            return self.written(state, low, width, value), None
        return tuple(None if low < place + count and place < high + width else word for (place, count), word in zip(self.kept, state.words)), None

    @staticmethod
    def told(first, last):
        return str(first) if first == last else f"{first} to {last}"

    def not_owned(self, queue, first, last, low, high):
        """Why a store to a slot is refused, where the own position is from `first` to `last` and of `low` to `high` it is known that they are owned."""
        next_one, number = "slot" if queue.period() <= queue.size else "position", self.told(low, high) if high else "no"
        return (f"a store to a slot that isn't known to be its own, where the hart's next {next_one} is {self.told(first, last)}, and {number} "
                f"{'slot is' if high in (0, 1) and low == high else 'slots are'} known to be its own")

    def written(self, state, place, width, value):
        words = list(state.words)
        for at in range(place & ~3, place + width, 4):
            if (at, 4) in self.at:
                words[self.at[at, 4]] = self.kept_there(state.pc, self.at[at, 4], value) if (at, width) == (place, 4) else None
        for which, at, count in self.parts:
            if at < place + width and place < at + count:
                is_whole = (at, count) == (place, width)
                words[which] = self.low_bytes(self.kept_there(state.pc, which, value), width, state) if is_whole else None
        return tuple(words)

    def kept_there(self, pc, which, value):
        """What is known of an own word after a store of the whole: nothing if the word is never loaded."""
        self.word_stores.setdefault(which, set()).add(pc)
        if self.needed.hands and self.kept[which] in self.needed.hands.places and pc not in self.needed.hands.pcs:
            raise handed.Hands({pc})
        if pc in self.needed.matters:
            return value
        if which in self.reads:
            raise Matters({pc})
        self.dropped.setdefault(which, set()).add(pc)
        return None

    def moved(self, which, value, state):
        """By how much a store of this value to the own index moves the own count."""
        queue, share, own = self.asked[which], state.shares[which], variable_of("n", which)

        def step(ranges):
            layout = self.layout(ranges, (value, own))
            found, count, most = layout.value(value), layout.form(own), layout.most
            if isinstance(found, reference.Linear):
                word = (found.form.constant - queue.base) % 256 ** queue.index_width
                by = (word // queue.scale - queue.offset - count.constant) % queue.modulus
            elif isinstance(found, (reference.IndexFor, reference.SignedFor)):
                by = (found.form.constant - count.constant) % queue.modulus
            else:
                return None
            then = reference.plus(count, reference.number(by))
            is_word = reference.is_within(self.indexed, most, reference.without_sign(which, found), reference.IndexFor(which, then)) \
                or reference.is_cut(queue, found, then)
            return by if is_word else None

        found = step(self.ranges(state))
        if found is not None and found <= share.low:
            return found
        if found is None and value is not None:
            self.split_for(step, (value, own), state)
        if value is not None and share.low < share.high:
            raise Split(("A", which), share.low)
        raise Refused(state.pc, f"the own index isn't known to move on by at most {share.low}, which are owned there")

    def accessed(self, state):
        """What the instruction of a leaf loads or stores; or None."""
        if state.pc >= 4 * len(self.code):
            return None
        op, *parts = reference.meaning(self.code[state.pc // 4])
        if op in reference.LOADS:
            return Access(self.offset(state.registers[parts[1]], parts[2], state), reference.LOADS[op], True, False, None)
        if op in reference.STORES:
            y, x, given = parts
            return Access(self.offset(state.registers[x], given, state), reference.STORES[op], False, True, state.registers[y])
        if op.startswith("amo"):
            place = state.registers[parts[2]]
            return Access(place if isinstance(place, Form) else number(self.place(place, state)), 4, True, True, None)
        return None

    # ---- whole instructions

    def execute(self, state):
        """The states after the instruction: none where the hart has ended."""
        pc, registers = state.pc, state.registers
        if self.settles:
            self.split_blocks(state)
        if pc == 4 * len(self.code):
            return []
        if pc % 4 or pc > 4 * len(self.code):
            raise Refused(pc, "outside of the code")
        op, *parts = reference.meaning(self.code[pc // 4]) or (None,)
        if op in ("lui", "auipc"):
            return [self.put(state, parts[0], number((parts[1] << 12) + (pc if op == "auipc" else 0)))]
        if op in OPERATIONS:
            return [self.operated(state, op, *parts)]
        if op == "fence":
            return [self.put(state, 0, None)]
        if op == "jal":
            return [self.put(state, parts[0], number(pc + 4), pc + parts[1])]
        if op == "jalr":
            goal = self.place(registers[parts[1]], state)
            if goal is None:
                raise Refused(pc, "a jump to a place that is not known")
            return [self.put(state, parts[0], number(pc + 4), (goal + parts[2]) % SIZE & ~1)]
        if op in reference.TAKEN:
            return self.branched(state, op, *parts)
        if op in reference.LOADS:
            return self.after_load(state, op, *parts)
        if op in reference.STORES:
            y, x, given = parts
            words, move = self.store(state, self.offset(registers[x], given, state), reference.STORES[op], registers[y])
            return [self.put(state._replace(words=words), 0, None, move=move)]
        if op in ("ecall", "ebreak"):
            return self.called(state)
        if op:
            return [self.exchanged(state, op, *parts)]
        raise Refused(pc, f"the word {self.code[pc // 4]:08x}")

    def operated(self, state, op, to, x, y):
        is_immediate, x = op in IMMEDIATES, state.registers[x]
        y = y if is_immediate else state.registers[y]
        if state.handed and op in HANDED and (has_word(x) or has_word(y)):
            return self.put(state, to, handed.computed(op, x, number(y) if is_immediate else y, is_immediate, state, handed.is_handed(self, state.pc + 4, to)))
        value, fresh = self.computed(op, x, y, state)
        return self.put(self.settled(state, x, y), to, value, fresh=fresh)

    def after_load(self, state, op, to, x, given):
        width, place = reference.LOADS[op], self.offset(state.registers[x], given, state)
        if self.tagged and (seen := tags.looked(self, state, place, width)):
            return tags.after_load(self, state, to, *seen, op)
        value, looked = self.loaded(state, place, width, op in SIGNED_LOADS)
        if self.records and value is None and looked is None and (found := self.records.received(self, state, place, width, op in SIGNED_LOADS)) is not None:
            return [self.put(state, to, found[0], fresh=found[1])] if found else []
        most = reference.most_loaded(op)
        if value is None and looked is None and handed.is_handed(self, state.pc + 4, to):
            return [self.put(state, to, None, word=(0, most))]
        is_range = value is None and looked is None and (op in ("lbu", "lhu") or self.tells_by_bits)
        self.depends |= {"with_bytes"} if is_range else set()
        return [self.put(state, to, value, fresh=(0, most) if is_range and self.with_bytes else None, looked=looked)]

    def offset(self, value, given, state):
        if isinstance(value, Bits):
            return None
        if isinstance(value, Word):
            found = self.known(value, state)
            return None if found is None else number(found + given)
        return None if value is None else value.plus(number(given))

    def branched(self, state, op, first, second, offset):
        x, y = state.registers[first], state.registers[second]
        answer, found = self.compared(op, x, y, state), []
        state = self.settled(state, x, y)
        for taken in (True, False):
            if answer in (None, taken):
                after = state._replace(is_apart=any(low == high for low, high in state.handed))
                # where two registers are equal and nothing is known of one, it is what the other is
                if op in EQUALS and taken == (op == "beq") and (x is None) != (y is None):
                    which, value = (first, y) if x is None else (second, x)
                    after = after._replace(registers=state.registers[:which] + (value,) + state.registers[which + 1:], is_apart=True)
                found.append(self.put(after, 0, None, state.pc + (offset if taken else 4)))
        return found

    @staticmethod
    def split_blocks(state):
        for which, share in enumerate(state.shares):
            if share and share.first // BLOCK < share.last // BLOCK:
                raise Split(("p", which), (share.first // BLOCK + 1) * BLOCK - 1)

    def settled(self, state, *values):
        """The state with these values as forms, where they are words that a split made forms."""
        if not self.settles:
            return state
        forms = {value: self.as_form(value, state, False) for value in values if isinstance(value, Word)}
        if all(value == found for value, found in forms.items()):
            return state
        return state._replace(registers=tuple(forms.get(each, each) for each in state.registers), words=tuple(forms.get(each, each) for each in state.words))

    def exchanged(self, state, op, to, y, x):
        x, y = state.registers[x], state.registers[y]
        place = x if isinstance(x, Form) and self.may_be_tag(x, state) else self.place_of_exchange(x, state)
        old, looked = self.loaded(state, place, 4, False)
        if looked is not None:
            raise Refused(state.pc, "an AMO on the other's index")
        new, fresh = (y, None) if op == "amoswap" else self.computed("add", old, y, state) if op == "amoadd" and old is not None else (None, None)
        words, move = self.store(state, place, 4, None if fresh else new)
        return self.put(state._replace(words=words), to, old, move=move)

    def may_be_tag(self, value, state):
        """Whether a word there may be of the slots, or the tags, of a queue with tags of which the hart is a party."""
        low, high = self.limits(value, state)
        return any(queue.meets(low, high - low + 4) for _, queue, _ in self.tagged)

    def place_of_exchange(self, value, state):
        place = self.place(value, state)
        if place is None:
            raise Refused(state.pc, "an AMO at an address that is not known")
        return number(place)

    def called(self, state):
        """An environment call: whatever its number is, it may go on, with any numbers in a0 and a1."""
        return [self.put(state._replace(registers=state.registers[:10] + (None, None) + state.registers[12:]), 0, None)]

    def put(self, state, to, value, pc=None, fresh=None, looked=None, move=None, word=None, told=None):
        """The state after an instruction that leaves this value in a register: with a new variable for it, a word or another one, after a look
        at the other's index, after a tag told how much is owned, or after a store that moved an own count."""
        others, shares, registers, words = state.others, list(state.shares), list(state.registers), state.words
        kept = list(range(len(others)))
        if fresh:
            value, others, kept = value or variable_of("z", len(others)), others + (fresh,), kept + [None]
        if looked is not None:
            share = shares[looked]
            old = ("A", looked)
            registers = [self.without(each, old, share) for each in registers]
            words = tuple(self.without(each, old, share) for each in words)
            shares[looked] = share._replace(high=self.queues[looked].capacity)
        if word:
            value = variable_of("w", len(state.handed))
        if told:
            shares[told[0]] = shares[told[0]]._replace(low=told[1], high=told[1])
        if to:
            registers[to] = self.records.forgotten(value) if self.records else value
        if move:
            which, step = move
            share, period, all_turns = shares[which], self.queues[which].period(), self.queues[which].turns()
            turn = (share.first + step) // period
            if turn != (share.last + step) // period:
                raise Split(("p", which), (turn + 1) * period - step - 1)
            again = (share.begin + turn) // all_turns
            if again != (share.end + turn) // all_turns:
                raise Split(("t", which), (again + 1) * all_turns - turn - 1)
            on, further = step - turn * period, turn - again * all_turns
            registers, words = ([self.rebased(each, which, step, on, further) for each in values] for values in (registers, words))
            shares[which] = Share(None if share.count is None else share.count + step, share.first + on, share.last + on,
                                  share.low - step, share.high - step, share.begin + further, share.end + further)
        pc = (state.pc + 4 if pc is None else pc) % SIZE
        needed = self.needed.registers[pc // 4] if pc <= 4 * len(self.code) else frozenset()
        if state.pc in self.needed.after_calls:
            needed &= self.needed.after_calls[state.pc]
        known = [None] * 32
        for which in needed:
            known[which] = registers[which]
        known[0] = ZERO
        after = State(pc, tuple(known), tuple(words), tuple(shares), others, state.handed + ((word,) if word else ()), state.is_apart)
        after, origins = handed.numbered(after)
        origins = [(old, more) if old < len(state.handed) else (None, more + word[0]) for old, more in origins]
        return self.tidied(after, kept, move, looked, tuple(origins))

    def without(self, value, variable, share):
        """A value in which no variable stands for what was owned before a look."""
        if value is None or variable not in value.variables():
            return value
        return changed(value, lambda found: found.put(variable, number(share.low))) if share.low == share.high else None

    def rebased(self, value, which, step, on, further):
        """A value by the counts after the own one moved on, and with it the position and the turn."""
        if value is None or not value.terms:
            return value
        moves = {("n", which): step, ("p", which): on, ("t", which): further, ("A", which): -step}
        for variable in value.variables():
            if variable in moves:
                moved = variable_of(*variable, 1, -moves[variable])
                value = changed(value, lambda found: found.put(variable, moved))  # pylint: disable=cell-var-from-loop
        return value

    def tidied(self, state, kept, move, looked, words):
        """The state without the variables ("z", k) that nothing names, or that are a number."""
        used = {variable for value in (*state.registers, *state.words) if value is not None
                for variable in value.variables() if variable[0] == "z"} if state.others else ()
        stay = [which for which, (low, high) in enumerate(state.others) if low < high and ("z", which) in used]
        new = {("z", old): variable_of("z", at) for at, old in enumerate(stay)}

        def renamed(value):
            if all(variable[0] != "z" for variable, _ in value.terms):
                return value
            found = number(value.constant)
            for variable, m in value.terms:
                each = new.get(variable) or (number(state.others[variable[1]][0]) if variable[0] == "z" else variable_of(*variable))
                found = found.plus(each.times(m))
            return found

        if state.others:
            registers, own_words = (tuple([changed(value, renamed) for value in values]) for values in (state.registers, state.words))
            state = state._replace(registers=registers, words=own_words, others=tuple(state.others[which] for which in stay))
        moves = tuple(move[1] if move and move[0] == which else 0 for which in range(len(self.queues)))
        return Next(state, moves, tuple(looked == which for which in range(len(self.queues))), tuple(kept[which] for which in stay), words)

    def halves(self, state, split):
        """The state where a variable is at most `at`, and where it is more."""
        kind, which = split.variable
        for low, high in ((None, split.at), (split.at + 1, None)):
            if kind in "zw":
                ranges = state.others if kind == "z" else state.handed
                first, last = ranges[which]
                ranges = ranges[:which] + ((first if low is None else low, last if high is None else high),) + ranges[which + 1:]
                yield state._replace(others=ranges) if kind == "z" else state._replace(handed=ranges)
            else:
                share, names = state.shares[which], {"p": ("first", "last"), "t": ("begin", "end"), "A": ("low", "high")}[kind]
                share = share._replace(**{name: limit for name, limit in zip(names, (low, high)) if limit is not None})
                yield state._replace(shares=state.shares[:which] + (share,) + state.shares[which + 1:])

    def tree(self, state):
        """The case tree of a state: ("leaf", the state, what follows) or ("split", variable, at, tree, tree)."""
        return self.tree_within(state, iter(range(MOST_SPLITS)))

    def tree_within(self, state, splits):
        """`tree`, with no more splits than there are left."""
        try:
            return "leaf", state, self.execute(state)
        except Split as split:
            if next(splits, None) is None:
                raise Refused(state.pc, "more cases than a certificate may have") from None
            if not (split.is_one_by_one and self.settles):
                self.edges.setdefault(split.variable, set()).add(split.at)
            left, right = self.halves(state, split)
            return "split", split.variable, split.at, self.tree_within(left, splits), self.tree_within(right, splits)


def leaves(tree):
    todo = [tree]
    while todo:
        tree = todo.pop()
        if tree[0] == "leaf":
            yield tree
        else:
            todo += (tree[4], tree[3])
