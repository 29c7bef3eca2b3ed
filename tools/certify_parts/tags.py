"""Queues whose slots tell whose they are: how one is described, and what a load or a store makes of their tags.

A party's share says of such a queue how many positions are owned at least, as a number, so a state that says less covers one that says more.
"""

from typing import NamedTuple

import certificates
import tags as reference
from certificate_lines import TELLS
from tags import NUMBER, WORD, ZERO

from .forms import SIZE, Form, numbers_of, variable_of
from .queues import Wrong, numbers_given
from .values import FEW_TRIED

PARTIES = certificates.SENDER, certificates.RECEIVER
BITS, PHASES = "bits", "phases"


class BitsTell(reference.Bits):
    """The tag's bits under a mask are these in a free slot and in a full one."""

    def __str__(self):
        return " ".join(map(str, (BITS, *self)))


class PhasesTell(reference.Phases):
    """These turn with the rounds: they are `free` and `full` in even ones, and other two in odd ones."""

    def __str__(self):
        return " ".join(map(str, (PHASES, *self)))


class Tagged(NamedTuple):
    """For each slot there is an element of `tag_stride` bytes, itself or one of an array from `tags` on, of which the `tag_width` bytes from `tag_offset`
    on tell whose the slot is: with `zero` it is free if they are 0 and full otherwise, with `number` it is free for position k if they are k, and
    full of it if they are k + 1, else some bits of them tell. Position k lies in slot k mod `size`, in round k / `size`."""

    sender: int
    receiver: int
    slots: int
    size: int
    width: int
    tags: int
    tag_stride: int
    tag_offset: int
    tag_width: int
    tells: object  # ZERO, NUMBER, BitsTell or PhasesTell
    start: int

    has_tags = True

    def turns(self):
        return 2 if self.has_phases() else 1

    def period(self):
        return self.size

    @staticmethod
    def has_known_words():
        """No index has words that stand for counts."""
        return False

    def counting(self):
        return self

    def party(self, hart):
        return 0 if hart == self.sender else 1 if hart == self.receiver else None

    def first_owned(self, party):
        return 0 if party else self.size

    def has_bits(self):
        """Whether some bits of a tag tell, whatever the others are."""
        return not isinstance(self.tells, str)

    def has_phases(self):
        """Whether what tells depends on the round, so that even and odd ones are told apart, as turns."""
        return isinstance(self.tells, PhasesTell)

    def has_tags_apart(self):
        """Whether tags lie beside the slots, in elements of their own."""
        return (self.tags, self.tag_stride) != (self.slots, self.width)

    def meets(self, place, width):
        return self.meets_slots(place, width) or self.meets_tags(place, width)

    def meets_slots(self, place, width):
        return place < self.slots + self.size * self.width and self.slots < place + width

    def meets_tags(self, place, width):
        """Whether an access of these bytes touches a byte of an element with a tag."""
        return place < self.tags + self.size * self.tag_stride and self.tags < place + width

    def parts(self):
        return (("slots", self.slots, self.size * self.width), *[("tags", self.tags, self.size * self.tag_stride)] * self.has_tags_apart())

    def text(self):
        return " ".join(map(str, ("tagged", *self[:5], *self[7:], *(self[5:7] if self.has_tags_apart() else ()))))

    def asked(self):
        """The queue as the second implementation has it."""
        return reference.TaggedQueue(*self[:-1])

    def tag(self, position):
        """Where the tag of a position lies."""
        return self.tags + position % self.size * self.tag_stride + self.tag_offset

    def free(self, position):
        """The tag of a slot that is free for a position, or the bits of it that tell."""
        if self.has_phases():
            return reference.bits_in(self.tells, position // self.size % 2 == 0).free
        return self.tells.free if self.has_bits() else 0 if self.tells == ZERO else position % SIZE

    def found(self, position, test):
        """What of the tag tells, as it opens."""
        tag = test.number(self.tag(position), self.tag_width)
        return tag & self.tells.mask if self.has_bits() else tag

    def opened(self, test, is_given):
        """The queue with the position with which it opens: the given one, or else 0 or the first of which the tags say it, by numbers or by the bits of
        two rounds."""
        first = self
        if not is_given and (self.tells == NUMBER or self.has_phases()):
            round_before = test.number(self.tag(0), self.tag_width) - self.size
            starts = range(2 * self.size) if self.has_phases() else [
                position % SIZE for position in range(round_before + 1, round_before + self.size + 1)]
            first = self._replace(start=next((start for start in starts if self._replace(start=start).is_free(test)), 0))
        for position in range(first.start, first.start + first.size):
            found, wanted = first.found(position, test), first.free(position)
            if found != wanted:
                bits = f"'s bits under {first.tells.mask} open" if first.has_bits() else " opens"
                raise Wrong(f"the tag of slot {position % first.size}{bits} as {found}, and not as {wanted}, which says that it is free for position "
                            f"{position}: a queue opens with all slots free, and start= and tells= say what their tags are")
        return first

    def is_free(self, test):
        """Whether each slot of a round opens free."""
        return all(self.found(position, test) == self.free(position) for position in range(self.start, self.start + self.size))


def of_words(words):
    """The queue of a certificate's line, after its first word."""
    tells, at = words[7], 8 + TELLS[words[7]]
    elements, bits = words[at + 1:] or (words[2], words[4]), {BITS: BitsTell, PHASES: PhasesTell}.get(tells)
    return Tagged(*map(int, (*words[:5], *elements, *words[5:7])), bits(*map(int, words[8:at])) if bits else tells, int(words[at]))


NUMBERS = {"size": None, "width": WORD, "tag_stride": None, "start": 0, "sender": 0, "receiver": 1}
KEYS = ("slots", "tag", "tags", "tells", *NUMBERS)


def tag_given(text, width):
    """Where in a slot, or in an element of this many bytes, a tag begins, and its bytes."""
    offset, plus, count = text.partition("+")
    if not offset.isdigit() or plus and not count.isdigit():
        raise Wrong(f"tag is where in its slot a tag begins, as 4 or as the name of the first slot's, or that and its bytes, as 4+1, and not {text}")
    return int(offset), int(count) if plus else min(WORD, max(width - int(offset), 1))


# what is said of bits in place of numbers: those that may be left out have another one
BIT, BITS_SAID, PHASES_SAID = "bit", ("MASK", "FREE", "FULL"), ("MASK", "FREE", "FULL", "ODD_FREE", "ODD_FULL")


def tells_given(text, width):
    """How a tag of so many bytes tells."""
    if text in (ZERO, NUMBER):
        return text
    name, *numbers = text.split(":")
    if not (name == BIT and 1 <= len(numbers) <= len(BITS_SAID) or name == PHASES and len(numbers) == len(PHASES_SAID)):
        raise Wrong("tells is zero, number, or bit:MASK, bit:MASK:FREE or bit:MASK:FREE:FULL, where MASK has the bits that tell, which are FREE (0) in a "
                    f"free slot and FULL (all of them) in a full one, or {PHASES}:{':'.join(PHASES_SAID)}, where they are the last two in every other round")
    try:
        mask, *bits = (int(each.encode("ascii"), 0) for each in numbers)
    except ValueError:
        raise Wrong(f"of tells={text} each number is in decimal, or as 0x80000000") from None
    if not 0 < mask < 256 ** width:
        raise Wrong(f"the mask of tells={text} has bits that a tag of {width} bytes doesn't have" if mask > 0 else f"the mask of tells={text} has no bit")
    for each in bits:
        if each & mask != each:
            raise Wrong(f"of tells={text} {each} has bits that aren't of the mask")
    return phases_of(text, mask, bits) if name == PHASES else bits_of(text, mask, *bits)


def bits_of(text, mask, free=0, full=None):
    """Bits that are the same in all rounds."""
    found = BitsTell(mask, free, mask if full is None else full)
    if found.free == found.full:
        raise Wrong(f"of tells={text} the bits of a free slot are those of a full one")
    return found


def phases_of(text, mask, bits):
    """Bits that turn with the rounds: those of a slot go from one to the next, and from the last to the first."""
    for at, (one, other) in enumerate(zip(bits, bits[1:] + bits[:1])):
        if one == other:
            raise Wrong(f"of tells={text} {PHASES_SAID[1:][at]} and {(PHASES_SAID[2:] + PHASES_SAID[1:2])[at]} are the same: a slot's bits are to change each "
                        "time that it is filled or emptied")
    return PhasesTell(mask, *bits)


def described(places, given, test):
    """The queue of a --tagged: its places, and what else is given."""
    missing = [name for name in ("slots",) if name not in places] + ["size"] * ("size" not in given)
    if missing:
        raise Wrong(f"a queue whose slots tell needs {missing[0]}=")
    numbers = numbers_given(given, KEYS, NUMBERS, ("tag", "tells"), "a queue whose slots tell")
    size, width, start = numbers["size"], numbers["width"], numbers["start"]
    for name in ("size", "width", "tag_stride"):
        if numbers.get(name, 1) < 1:
            raise Wrong(f"{name} is {numbers[name]}, and must be at least 1")
    are_slots = "tags" not in places
    if are_slots and "tag_stride" in numbers:
        raise Wrong("tag_stride is the bytes of an element of an array of tags beside the slots: say where that begins, as tags=PLACE")
    offset, count = tag_given(given.get("tag", "0"), width if are_slots else numbers.get("tag_stride", WORD))
    stride = width if are_slots else numbers.get("tag_stride", offset + count)
    if not 1 <= count <= WORD:
        raise Wrong(f"a tag has 1 to {WORD} bytes, and not {count}")
    if offset + count > stride:
        past = f"a slot of {width}: width is the bytes of a slot" if are_slots else f"an element of {stride}: tag_stride is the bytes of an element with a tag"
        raise Wrong(f"the tag's {count} bytes from {offset} on reach past {past}")
    tells = tells_given(given.get("tells", ZERO), count)
    if tells == NUMBER and count != WORD:
        raise Wrong(f"with tells=number a tag has {WORD} bytes, and not {count}")
    if tells == NUMBER and size == 1:
        raise Wrong("numbers don't tell of one slot whose it is: 1 says that it is full of position 0, and free for position 1")
    if start >= SIZE:
        raise Wrong(f"start is below {SIZE}")
    if numbers["sender"] == numbers["receiver"]:
        raise Wrong("the sender and the receiver are two harts")
    queue = Tagged(numbers["sender"], numbers["receiver"], places["slots"], size, width, places.get("tags", places["slots"]), stride, offset, count, tells,
                   start)
    last = test.end()
    if queue.slots + size * width > last:
        raise Wrong(f"{size} slots of {width} bytes from {queue.slots} on end past the text's words, which end at {last}: size is the number of slots,"
                    " and width the bytes of one")
    if queue.tags + size * stride > last:
        raise Wrong(f"{size} elements of {stride} bytes with the tags from {queue.tags} on end past the text's words, which end at {last}: size is the "
                    "number of slots, and tag_stride the bytes of an element")
    if queue.has_tags_apart() and queue.meets_slots(queue.tags, size * stride):
        raise Wrong(f"the {size} elements of {stride} bytes with the tags from {queue.tags} on overlap the slots from {queue.slots} on: a tag is a part of the "
                    "first slot, or of an array beside all of them")
    if max(queue.sender, queue.receiver) >= len(test.harts):
        raise Wrong(f"the text has {len(test.harts)} harts")
    return queue.opened(test, "start" in given)


# ---- loads

def place_in(program, which, state, place, width):
    """The position, from the own count on, and the offset in its slot, of an access of slots; None where these aren't known."""
    queue, (low, high) = program.queues[which], program.limits(place, state)
    return program.positions(which, place, width, state) if queue.slots <= low and high + width <= queue.slots + queue.size * queue.width else None


def tag_in(program, which, state, place, width):
    """The same of an access of elements with tags."""
    queue, (low, high) = program.queues[which], program.limits(place, state)
    is_within = queue.tags <= low and high + width <= queue.tags + queue.size * queue.tag_stride
    return program.positions(which, place, width, state, queue.has_tags_apart()) if is_within else None


def looked(program, state, place, width):
    """The queue, and the position from the own count on, of which a load reads the whole tag; or None."""
    low, high = program.limits(place, state)
    seen = None
    for which, queue, _ in program.tagged:
        if width == queue.tag_width and queue.meets_tags(low, high - low + width):
            found = tag_in(program, which, state, place, width)
            if found is not None and found[1] == queue.tag_offset:
                seen = which, found[0]
    return seen


def read_rest(program, which, state, place, width):
    """Takes down a load of slots that isn't shown to be of a tag or of an owned slot."""
    queue, found = program.queues[which], place_in(program, which, state, place, width)
    if found is not None and found[0] < state.shares[which].low:
        return
    found = tag_in(program, which, state, place, width)
    if found is not None and queue.tag_offset <= found[1] and found[1] + width <= queue.tag_offset + queue.tag_width:
        return
    program.see_unowned(which, state.pc)


def after_load(program, state, to, which, position, op):
    """The states after a load of a tag by this instruction: the party is told that it owns up to that position, or not yet."""
    queue, party, own = program.asked[which], PARTIES[program.parties[which]], variable_of("n", which)

    def loaded(ranges):
        layout = program.layout(ranges, (own,), True)
        return layout, [value_of(layout.most, queue, party, op, layout.form(own), position) for value_of in (reference.told_value, reference.other_value)]

    layout, results = loaded(program.ranges(state))
    if program.queues[which].has_phases() and results[0].value is certificates.ANY:
        program.split_for(lambda ranges: loaded(ranges)[1][0].value, (own,), state, SIZE)
    told, other = (left(layout.found(result, len(state.others))) for result in results)
    is_owned = position < state.shares[which].low
    found = [program.put(state, to, **told, told=None if is_owned else (which, position + 1))]
    return found if is_owned else [*found, program.put(state, to, **other)]


def left(found):
    """What a register has after a load: a value, or a word of some range."""
    value, fresh = found
    return {"value": None, "word": (value.constant, value.constant + fresh[1])} if fresh else {"value": value}


# ---- stores

def stored(program, which, state, place, width, value):
    """By how much a store that may be of slots moves the own count of which queue, or None."""
    queue, share, tag = program.queues[which], state.shares[which], tag_in(program, which, state, place, width)
    found = tag or place_in(program, which, state, place, width)
    if found is None:
        program.refuse(state.pc, "a store that may be to slots, or to a tag, of which slot isn't known")
    position, offset = found
    if tag and (offset, width) == (queue.tag_offset, queue.tag_width):
        if position:
            program.refuse(state.pc, f"a store to the tag of another position than its own, which is {position} before it")
        if not share.low:
            program.refuse(state.pc, "a store to the tag of its own position, which isn't known to be owned")
        program.hands_over(state, queue)
        check_handed(program, which, state, value)
        return which, 1
    if tag and (queue.has_tags_apart() or offset < queue.tag_offset + queue.tag_width and queue.tag_offset < offset + width):
        program.refuse(state.pc, "a store to a part of a tag, or to a tag and what lies beside it")
    if position >= share.low:
        program.refuse(state.pc, program.not_owned(queue, share.first, share.last, share.low, share.low))
    return None


def check_handed(program, which, state, value):
    """Refuses a store of the own tag that isn't known to hand its position over."""
    queue, party, own, pc = program.asked[which], PARTIES[program.parties[which]], variable_of("n", which), state.pc

    def hands_over(ranges):
        layout = program.layout(ranges, (value, own))
        return reference.hands_over(layout.most, queue, party, layout.form(own), program.operand(layout, value)) or None

    if hands_over(program.ranges(state)):
        return
    layout, gap = program.layout(program.ranges(state), (own,)), queue.size if party == PARTIES[1] else 0
    counted = layout.form(own)
    wanted = reference.told_by(layout.most, queue.size, queue.codec, certificates.other(party), reference.further(counted, gap))
    if isinstance(wanted, reference.NumberOf):
        program.split_for(hands_over, (value, own), state, FEW_TRIED)
        program.refuse(pc, f"the tag that it stores isn't known to be the position's number and {wanted.form.constant - counted.constant}")
    if wanted == reference.NOTHING:
        program.refuse(pc, "the tag that it stores isn't known to be 0")
    if wanted != reference.SOMETHING:
        program.refuse(pc, f"the bits under {wanted.mask} of the tag that it stores aren't known to be {wanted.bits}")
    known = program.known(value, state)
    limits = (known, known) if known is not None else isinstance(value, Form) and numbers_of(value, program.ranges(state))
    program.refuse(pc, "the tag that it stores may be 0, which says that the slot is free" if not limits or not limits[0] else
                   f"the tag that it stores isn't known to fit its {queue.tag_width} bytes")
