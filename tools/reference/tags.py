"""Queues whose slots tell whose they are by a tag: what their tags tell, what a load and a store of one make of a known state, and when it is
shown that their protocol is kept. Definition by definition, and by the same names, what crates/queue_certificates/specs defines in Tags and, of
queues with tags, in Certificates. `certificates.py` has what these stand on, and asks this where it judges a certificate.

A queue with tags has slots, a size and a width as one with indices has: what asks of a place in slots takes either. Those that have tags are
numbered by `t` here. In a state their shares stand after those of the queues with indices, and outside they are numbered on after these.
"""

from typing import NamedTuple

import certificates

ZERO, NUMBER = "zero", "number"
WORD = 4


class Bits(NamedTuple):
    """The bits of a tag under a mask are these in a free slot and in a full one."""

    mask: int
    free: int
    full: int


class Phases(NamedTuple):
    """The bits of a tag under a mask turn with the rounds, each of as many positions as there are slots: in even rounds they are `free` in a free slot and
    `full` in a full one, and in odd rounds these are `odd_free` and `odd_full`."""

    mask: int
    free: int
    full: int
    odd_free: int
    odd_full: int


class TaggedQueue(NamedTuple):
    """Each of the elements of `tag_stride` bytes from `tags` on has, from `tag_offset` on, `tag_width` bytes that are the tag of the slot of its number,
    which tells as `codec` says. The elements are the slots, or lie apart from them."""

    sender: int
    receiver: int
    slots: int
    size: int
    width: int
    tags: int
    tag_stride: int
    tag_offset: int
    tag_width: int
    codec: object  # ZERO, NUMBER, Bits or Phases


class OpenedTagged(NamedTuple):
    """A queue, and the position with which it opens."""

    queue: TaggedQueue
    start: int


# ---- tags

def zero_is_free(party, v):
    return (v == 0) == (party == certificates.SENDER)


def position_number(m, party, k, v):
    return v == (k if party == certificates.SENDER else k + 1) % m


def bits_under(bits, party, v):
    return v & bits.mask == (bits.free if party == certificates.SENDER else bits.full)


def bits_in(phases, is_even):
    """The bits of the positions of a round."""
    return Bits(phases.mask, phases.free, phases.full) if is_even else Bits(phases.mask, phases.odd_free, phases.odd_full)


def phase_bits(size, phases, party, k, v):
    return bits_under(bits_in(phases, certificates.div(k, size) % 2 == 0), party, v)


def tells_by(size, codec, party, k, v):
    if isinstance(codec, Phases):
        return phase_bits(size, codec, party, k, v)
    if isinstance(codec, Bits):
        return bits_under(codec, party, v)
    return zero_is_free(party, v) if codec == ZERO else position_number(certificates.M32, party, k, v)


def party_in(q, h):
    return certificates.party_of(q, h)


def owned_at_first(q, party):
    """How many positions a party owns where nothing was sent yet: `owned_end`, from the position on with which the queue opens."""
    return q.size if party == certificates.SENDER else 0


def elements(q):
    """The queue whose slots are the elements with the tags."""
    return q._replace(slots=q.tags, width=q.tag_stride)


def are_slots(q):
    """The elements with the tags are the slots."""
    return (q.tags, q.tag_stride) == (q.slots, q.width)


def are_apart_from_slots(q):
    return certificates.are_apart(q.slots, q.size * q.width, q.tags, q.size * q.tag_stride)


def tag_of(q, k):
    return q.tags + q.tag_stride * certificates.mod(k, q.size) + q.tag_offset


def always_change(bits):
    """Each time that a slot is filled or emptied, its bits are other ones."""
    if isinstance(bits, Phases):
        return bits.free != bits.full != bits.odd_free != bits.odd_full != bits.free
    return bits.free != bits.full


def ways(bits):
    """The bits of a slot that is free, or full, in each round."""
    return (bits.free, bits.full, bits.odd_free, bits.odd_full) if isinstance(bits, Phases) else (bits.free, bits.full)


def tag_flaws(q):
    """What `is_tagged` asks, in its order, each with what is wrong where it isn't so."""
    number, bits = q.codec == NUMBER, q.codec if isinstance(q.codec, (Bits, Phases)) else None
    return ((q.sender != q.receiver, "one hart as its sender and its receiver"),
            (q.size >= 1, "no slot"),
            (q.tag_width >= 1, "a tag without a byte"),
            (q.tag_width <= WORD, "a tag of more than 4 bytes"),
            (q.tag_offset + q.tag_width <= q.tag_stride, "a tag that reaches past its slot"),
            (are_slots(q) or are_apart_from_slots(q), "tags that overlap its slots"),
            (not number or q.tag_width == WORD, "numbers in a tag that isn't a word"),
            (not number or q.size % certificates.M32 != 1, "numbers that are the same for free and for full slots"),
            (not bits or bits.mask < 256 ** min(q.tag_width, WORD), "a mask with bits that its tag doesn't have"),
            (not bits or always_change(bits), "bits that are the same for free and for full slots"),
            (not bits or all(told & bits.mask == told for told in ways(bits)), "bits for free or full slots that its mask doesn't have"))


def is_tagged(q):
    return all(holds for holds, _ in tag_flaws(q))


# ---- accesses of slots, at an address that is a form

def is_in_element(ranges, q, s, f):
    among = elements(q)
    position = certificates.position_at(among, s.own.constant, f.constant)
    return certificates.is_slot(ranges, among, f, certificates.offset_at(among, f.constant),
                                certificates.remainder(ranges, certificates.plus(s.own, certificates.number(position)), q.size))


def tag_position(ranges, q, s, place, width):
    """How much further than the own count the position is whose whole tag this is, or None."""
    if not isinstance(place, certificates.Linear) or width != q.tag_width or certificates.offset_at(elements(q), place.form.constant) != q.tag_offset:
        return None
    return certificates.position_at(elements(q), s.own.constant, place.form.constant) if is_in_element(ranges, q, s, place.form) else None


def is_of_rest(ranges, q, s, place, width):
    if not isinstance(place, certificates.Linear):
        return False
    offset = certificates.offset_at(q, place.form.constant)
    is_beside_tag = not are_slots(q) or offset + width <= q.tag_offset or q.tag_offset + q.tag_width <= offset
    return is_beside_tag and certificates.is_owned(ranges, q, s, place, width)


def is_of_tag(ranges, q, s, place, width):
    if not isinstance(place, certificates.Linear):
        return False
    offset = certificates.offset_at(elements(q), place.form.constant)
    return q.tag_offset <= offset and offset + width <= q.tag_offset + q.tag_width and is_in_element(ranges, q, s, place.form)


def is_beside_slots(q, b, width):
    """They are bytes of no slot, and of no element with a tag."""
    return certificates.is_apart(b, width, q.slots, q.size * q.width) and certificates.is_apart(b, width, q.tags, q.size * q.tag_stride)


# ---- what a party loads, and what hands its position over

def further(own, n):
    return certificates.plus(own, certificates.number(n))


class NumberOf(NamedTuple):
    """What a tag satisfies that is this form, of a whole word."""

    form: object  # a form of certificates.py


NOTHING, SOMETHING, UNKNOWN = "it is 0", "it isn't 0", "it isn't known"


def is_even_between(size, b):
    """Whether a position is of an even round, of which these are the bounds of its remainder by two rounds; or None."""
    if b is None:
        return None
    return True if b.high < size else False if size <= b.low else None


def is_of_even_round(ranges, size, position):
    return is_even_between(size, certificates.bounds_of(2 * size, ranges, position))


def told_by(ranges, size, codec, party, position):
    """What a tag satisfies that tells the party that it has the position that a form is: NOTHING, SOMETHING, a NumberOf, the bits of a HasBits, or
    UNKNOWN, anything."""
    sends = party == certificates.SENDER
    if isinstance(codec, Phases):
        is_even = is_of_even_round(ranges, size, position)
        return UNKNOWN if is_even is None else told_by(ranges, size, bits_in(codec, is_even), party, position)
    if isinstance(codec, Bits):
        return certificates.HasBits(codec.mask, codec.free if sends else codec.full)
    if codec == ZERO:
        return NOTHING if sends else SOMETHING
    return NumberOf(position if sends else further(position, 1))


def back_to(q, codec, party):
    """From a position of the sender's, the party's own one of that slot: as far on, by what tells, as it lies back."""
    if party == certificates.SENDER:
        return 0
    return q.size if isinstance(codec, Phases) else certificates.M32 - q.size % certificates.M32


# the bits that an unsigned load leaves 0
ABOVE = {"lbu": 0xFFFFFF00, "lhu": 0xFFFF0000}


def extended(op, v):
    """The word that a load makes of the bytes that it loads."""
    width = certificates.LOADS[op]
    v %= 256 ** width
    return v if op in ABOVE or op == "lw" else certificates.signed_word(width, v)


def some_up_to(n):
    """A number that isn't 0."""
    return certificates.Result(certificates.monus(n, 1), certificates.Linear(certificates.Form(1, (1,))))


def value_told(op, told):
    """What a load leaves of such a tag."""
    if told == UNKNOWN:
        return certificates.or_up_to(certificates.most_loaded(op), certificates.ANY)
    if told == NOTHING:
        return certificates.just(certificates.Linear(certificates.number(0)))
    if told == SOMETHING:
        return some_up_to(certificates.most_loaded(op))
    if isinstance(told, NumberOf):
        return certificates.just(certificates.Linear(told.form))
    return certificates.just(certificates.of_bits(extended(op, told.mask) | ABOVE.get(op, 0), extended(op, told.bits)))


def told_value(ranges, q, party, op, own, j):
    """What the party loads that has the position j further."""
    return value_told(op, told_by(ranges, q.size, q.codec, party, further(own, j)))


def other_value(ranges, q, party, op, own, j):
    """What it loads where the other still has the slot."""
    other = certificates.other(party)
    return value_told(op, told_by(ranges, q.size, q.codec, other, further(own, j + back_to(q, q.codec, other))))


def is_positive(width, b):
    return b is not None and b.low >= 1 and b.high < 256 ** width


def is_number(n, v, g):
    return isinstance(v, certificates.Linear) and certificates.is_same(n, v.form, g)


def are_these(known, mask, bits):
    return known is not None and known.mask & mask == mask and known.bits & mask == bits


def are_above(b, mask, bits):
    """Whether bits are all above a number, and so 0."""
    return b is not None and bits == 0 and b.high < (mask & -mask or certificates.M32)


def has_these(ranges, v, mask, bits):
    return are_these(certificates.bits_of(v), mask, bits) or are_above(certificates.bounds(ranges, v), mask, bits)


def makes(ranges, width, told, v):
    """Whether a stored value makes a tag that tells so."""
    if told == UNKNOWN:
        return False
    if told == NOTHING:
        return is_number(256 ** width, v, certificates.number(0))
    if told == SOMETHING:
        return is_positive(width, certificates.bounds(ranges, v))
    if isinstance(told, NumberOf):
        return is_number(certificates.M32, v, told.form)
    return has_these(ranges, v, *told)


def hands_over(ranges, q, party, own, v):
    """The sender hands over its own position, and the receiver the slot's next one."""
    gap = 0 if party == certificates.SENDER else q.size
    return makes(ranges, q.tag_width, told_by(ranges, q.size, q.codec, certificates.other(party), further(own, gap)), v)


def handed(s):
    return certificates.Share(further(certificates.lifted(s.own), 1), certificates.number(certificates.monus(s.owned.constant, 1)))


class Tags:
    """Of a hart, whose steps these are where there were no tags."""

    def __init__(self, steps, tagged):
        self.steps, self.tagged, self.before = steps, tagged, len(steps.queues)
        self.parties = [party_in(q, steps.h) for q in tagged]

    def tag_share(self, k, t):
        return certificates.get_or(k.shares, self.before + t, certificates.NO_SHARE)

    def with_share(self, t, s, k):
        return k._replace(shares=certificates.put_at(k.shares, self.before + t, s))

    def tag_at(self, k, place, width, t):
        return self.parties[t] and tag_position(k.ranges, self.tagged[t], self.tag_share(k, t), place, width)

    def last(self, holds):
        return certificates.last_below(len(self.tagged), holds)

    def each(self, holds):
        return certificates.all_below(len(self.tagged), holds)

    # loads

    def after(self, k, rd, value):
        return certificates.with_result(k, rd, certificates.next_pc(k.pc), value)

    def after_tag(self, k, op, rd, t, j):
        q, party, s = self.tagged[t], self.parties[t], self.tag_share(k, t)
        told = self.after(k, rd, told_value(k.ranges, q, party, op, s.own, j))
        if j < s.owned.constant:
            return [told]
        owns = certificates.Share(certificates.lifted(s.own), certificates.number(j + 1))
        return [self.with_share(t, owns, told), self.after(k, rd, other_value(k.ranges, q, party, op, s.own, j))]

    def load_tells(self, k, op, rd, place, b, states):
        width = certificates.LOADS[op]
        look = self.last(lambda t: self.tag_at(k, place, width, t) is not None)
        if look is None:
            return states
        return self.after_tag(k, op, rd, look, self.tag_at(k, place, width, look)) if self.steps.may_load(k, b, width, None) else None

    # stores, and those of AMOs

    def moved_tag(self, k, place, width):
        """The queue of whose own position this is the tag, whole."""
        return self.last(lambda t: self.tag_at(k, place, width, t) == 0)

    def may_tell(self, k, v, place, b, width, move, t):
        q, party, s = self.tagged[t], self.parties[t], self.tag_share(k, t)
        if move == t:
            return s.owned.constant >= 1 and self.before + t < len(k.shares) and hands_over(k.ranges, q, party, s.own, v)
        return is_beside_slots(q, b, width) or party is not None and is_of_rest(k.ranges, q, s, place, width)

    def value_stored(self, k, instruction):
        """What is known of it: of an AMO's without what it loads."""
        op, *parts = instruction
        if op in certificates.STORES:
            return self.steps.operand(k, parts[0])
        return self.steps.updated_value(k.ranges, op, certificates.ANY, self.steps.operand(k, parts[1]))

    def store_tells(self, k, v, place, b, width, move, states):
        if not self.each(lambda t: self.may_tell(k, v, place, b, width, move, t)):
            return None
        return states if move is None else [self.with_share(move, handed(self.tag_share(k, move)), state) for state in states]

    # instructions

    def next_told(self, k, instruction, states):
        """The states that may follow, where `states` do if there were no tags."""
        access = self.steps.accessed(k, instruction)
        if states is None or access is None:
            return states
        op, *parts = instruction
        place, b, width = access[:3]
        if op in certificates.LOADS:
            return self.load_tells(k, op, parts[0], place, b, states)
        return self.store_tells(k, self.value_stored(k, instruction), place, b, width, self.moved_tag(k, place, width), states)

    # each byte of a load that is of queue t's slots is of a tag, or of an owned slot

    def reads_rest(self, k, t, place, b, width):
        q, s = self.tagged[t], self.tag_share(k, t)
        return is_beside_slots(q, b, width) or is_of_tag(k.ranges, q, s, place, width) or certificates.is_owned(k.ranges, q, s, place, width)

    def loads_rest(self, k, t, instruction):
        access = self.steps.accessed(k, instruction)
        return not access or not access[3] or self.reads_rest(k, t, *access[:3])


# ---- certificates

def tags_of(c, h):
    return Tags(certificates.steps_of(c, h), [each.queue for each in c.tagged])


def covers_share(ranges, s, t, forms):
    """The same count, and no more is said to be owned."""
    return certificates.is_same(0, s.own, certificates.substituted(t.own, forms)) \
        and certificates.fits_in(certificates.most(ranges, certificates.substituted(t.owned, forms)), s.owned.constant)


def tags_lead(before, number, k, t, forms):
    def share(state, at):
        return certificates.get_or(state.shares, before + at, certificates.NO_SHARE)
    return certificates.all_below(number, lambda at: covers_share(k.ranges, share(k, at), share(t, at), forms))


def owns_rest(c, h, code, t, k, cases):
    tags = tags_of(c, h)
    return all(tags.loads_rest(leaf, t, certificates.instruction_at(code, leaf.pc)) for leaf, _ in certificates.leaves(k, cases))


def opens_told(q, party, start, s, numbers):
    if party is None:
        return True
    own, owned = (certificates.form_value(f, numbers) for f in s)
    return start == own and own + owned <= start + owned_at_first(q, party)


def opens_all_told(c, h, k, numbers):
    return all(opens_told(each.queue, party_in(each.queue, h), each.start, certificates.get_or(k.shares, len(c.queues) + t, certificates.NO_SHARE), numbers)
               for t, each in enumerate(c.tagged))


def opens_free(opening, q, start):
    """Each slot of a round tells the sender that it is free."""
    # what lies past memory's words is 0, so of tags that 0 frees only those within are looked at
    within = max(0, 4 * len(opening.words) - q.tags) // q.tag_stride + 1
    slots = range(min(q.size, within) if q.codec == ZERO else q.size)
    return all(tells_by(q.size, q.codec, certificates.SENDER, k, certificates.number_seen(opening, tag_of(q, k), q.tag_width))
               for k in (start + (slot - start) % q.size for slot in slots))


def accepts_tagged(opening, each):
    return is_tagged(each.queue) and opens_free(opening, *each)


def first_unowned_rest(opening, c, t, h):
    """The first state of the hart with a load of tagged queue t's slots that isn't shown to be of tags and of owned slots."""
    code = opening.harts[h][0]
    return next((n for n, (known, cases, *_) in enumerate(certificates.part_of(c, h).states) if not owns_rest(c, h, code, t, known, cases)), None)


def accepts_rest(opening, c, t, h):
    return first_unowned_rest(opening, c, t, h) is None


def tagged_accesses(opening, c, t):
    """As `slot_accesses`, of tagged queue t's slots."""
    return certificates.accesses_of(opening, c, c.tagged[t].queue)


def tagged_fault(q):
    """What is wrong with a queue that isn't accepted."""
    return next((fault for holds, fault in tag_flaws(q) if not holds), "a slot that isn't free where it opens")
