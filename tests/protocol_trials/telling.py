"""The protocol of slots that tell by a tag (slots_that_tell/specs), and wrong protocols, each of which changes one definition."""

from typing import NamedTuple

from .runs import RECEIVER, SENDER, THIRD, Counts, Run

SLOTS = 128


class Slots(NamedTuple):
    """The slots, where their tags lie, and how these tell: by zero for free, by positions' numbers if there is a modulus, or by the bits under a mask: for
    each of the rounds, which follow one another again and again, those of a free slot and of a full one. Tags lie in the slots, or in elements
    beside them: where these begin, and the bytes of one."""

    size: int
    width: int
    tag_offset: int
    tag_width: int
    modulus: int = 0
    slots: int = SLOTS
    apart: tuple = None
    mask: int = 0
    rounds: tuple = ()

    # as many positions may be in use as there are slots
    @property
    def capacity(self):
        return self.size

    def tells(self, p, k, v):
        """Whether the tag tells the sender that the slot is free for position k, or the receiver that position k is in it."""
        if self.rounds:
            return v & self.mask == self.bits(p, k)
        if self.modulus:
            return v == (k + p) % self.modulus
        return (v == 0) == (p == SENDER)

    def bits(self, p, k):
        """The bits that tell so."""
        return self.rounds[k // self.size % len(self.rounds)][p]

    def word(self, draw, p, k):
        """A word that tells so."""
        if self.rounds:
            return draw.below(256**self.tag_width) & ~self.mask | self.bits(p, k)
        if self.modulus:
            return (k + p) % self.modulus
        return 0 if p == SENDER else draw.between(1, 256**self.tag_width - 1)

    def law(self):
        """The law that this is a way to tell."""
        if self.rounds:
            return "bits_tell" if len(self.rounds) == 1 else "phases_tell"
        return "numbers_tell" if self.modulus else "zero_tells"

    def slot_of(self, k):
        return self.slots + self.width * (k % self.size)

    def elements(self):
        return self.apart or (self.slots, self.width)

    def element_at(self, addr):
        tags, stride = self.elements()
        return (addr - tags) // stride

    def element_bytes(self):
        tags, stride = self.elements()
        return range(tags, tags + self.size * stride)

    def tag_of(self, k):
        tags, stride = self.elements()
        return tags + stride * (k % self.size) + self.tag_offset

    def is_tag(self, addr, width):
        return width == self.tag_width and addr == self.tag_of(self.element_at(addr))


QUEUES = (
    Slots(4, 4, 0, 4),
    Slots(1, 4, 0, 4),
    Slots(3, 12, 8, 4),
    Slots(5, 3, 1, 1),
    Slots(3, 4, 2, 2),
    Slots(4, 8, 0, 4, 2**32),
    Slots(2, 4, 0, 4, 2**32),
    Slots(3, 5, 4, 1, 256),
    Slots(2, 8, 4, 4, 2),
    Slots(4, 4, 0, 1, apart=(96, 1)),
    Slots(3, 5, 2, 2, apart=(224, 5)),
    Slots(2, 8, 4, 4, 2**32, apart=(224, 8)),
    Slots(4, 8, 4, 4, mask=2**31, rounds=((0, 2**31),)),
    Slots(2, 4, 0, 2, mask=0x8080, rounds=((0, 0x80), (0x8080, 0x8000))),
    Slots(1, 4, 0, 4, mask=0x8080, rounds=((0, 0x80), (0x8080, 0x8000))),
    Slots(3, 5, 2, 1, mask=3, rounds=((0, 1), (2, 1)), apart=(224, 5)),
)
# a round of few slots shows sooner that one is owned too early
OF_FEW = tuple(queue for queue in QUEUES if queue.size < 3)


class Telling(Run):
    """the protocol of slots that tell"""

    laws = ("window", "publication", "publication_of_tag", "delivery", "handing_back", "waiting", "in_order",
            "in_order_as_learned", "look", "zero_tells", "numbers_tell", "bits_tell", "phases_tell")
    queues = QUEUES
    published_with = "publication_of_tag"
    hands_what_stands_after = True
    learns_what_stood_before = True

    def __init__(self, draw):
        super().__init__(draw)
        # the order of what a receiver takes is asked only of one that makes no AMO
        self.exchanges = draw.random() < 0.5

    def opened(self, first):
        queue, machine, draw = self.queue, self.machine, self.draw
        for x in (*range(queue.slots, queue.slots + queue.size * queue.width), *queue.element_bytes()):
            machine.put(x, 1, draw.below(256))
        taken = first + draw.between(0, queue.size)
        published = draw.between(taken, first + queue.size)
        for k in range(taken, taken + queue.size):
            machine.put(queue.tag_of(k), queue.tag_width, queue.word(draw, RECEIVER if k < published else SENDER, k))
        return Counts((published, taken), (first, draw.between(taken, published)))

    # ---- the protocol

    def is_outside(self, x):
        return super().is_outside(x) and x not in self.queue.element_bytes()

    def tag_position(self, x, n):
        """The first position from n on in whose element the byte lies."""
        return n + (self.queue.element_at(x) - n) % self.queue.size

    def is_whole(self, p, access):
        return self.queue.is_tag(access.addr, access.width)

    def moved(self, p, n, access):
        return n + 1

    def told(self, p, j):
        """What a party knows of the other's count that was told that it has position j."""
        return max(j + 1 - self.gap(1 - p), 0)

    def learned(self, p, counts, access):
        if not self.is_whole(p, access):
            return counts
        j = self.tag_position(access.addr, counts.count[p])
        return counts.with_known(p, max(counts.known[p], self.told(p, j))) if self.queue.tells(p, j, access.loaded) else counts

    def is_tag_byte(self, k, x):
        return 0 <= x - self.queue.tag_of(k) < self.queue.tag_width

    def owns_rest(self, p, counts, x):
        if not self.is_slot_byte(x):
            return False
        k = self.first_position(x, counts.count[p])
        return k < self.end(p, counts) and not self.is_tag_byte(k, x)

    def is_tag_store(self, p, n, access):
        is_place = access.addr == self.queue.tag_of(n) and access.width == self.queue.tag_width
        return is_place and self.queue.tells(1 - p, n + self.gap(p), access.value)

    def moves_on(self, p, counts, access):
        return self.is_tag_store(p, counts.count[p], access) and counts.count[p] < self.end(p, counts)

    def fills_owned(self, p, counts, access):
        return all(self.is_outside(x) or self.owns_rest(p, counts, x) for x in access.bytes())

    def may_store(self, p, counts, access):
        return self.moves_on(p, counts, access) or self.fills_owned(p, counts, access)

    # ---- what is drawn

    def drawn_access(self, hart):
        queue, draw = self.queue, self.draw
        kind = draw.random()
        if hart == THIRD:
            x = draw.one_of((draw.one_of(self.beside), self.drawn_byte()))
            return self.store(x, draw.one_of((1, 2, 4))) if kind < 0.8 else self.exchange(hart, x, draw.below(2**32))
        k = self.drawn_position(hart)
        if kind < 0.35:
            return self.load(hart, queue.tag_of(k), queue.tag_width)
        if kind < 0.65:
            return self.store(queue.tag_of(k), queue.tag_width, self.drawn_word(hart, k))
        if kind < 0.9 or hart == RECEIVER and not self.exchanges:
            x = self.slot_of(k) + draw.below(queue.width)
            return self.store(x if draw.random() < 0.8 else draw.one_of(self.beside), draw.one_of((1, 1, 2, 4)))
        return self.exchange(hart, queue.tag_of(k), self.drawn_word(hart, k))

    def drawn_position(self, p):
        """A position, mostly the party's own or one that it owns."""
        count, end = self.counts.count[p], self.end(p, self.counts)
        return self.draw.one_of((count, count, self.draw.between(max(count - 1, 0), max(count, end))))

    def drawn_word(self, p, k):
        return self.queue.word(self.draw, 1 - p, k + self.gap(p))

    def drawn_byte(self):
        places = (*range(self.queue.slots, self.queue.slots + self.queue.size * self.queue.width), *(self.queue.element_bytes() if self.queue.apart else ()))
        return self.draw.one_of(places)

    # ---- laws

    def touches_records(self, access):
        return access.kind == "exchange" or super().touches_records(access) and not self.is_whole(RECEIVER, access)

    def look(self, hart, access, new):
        """A tag that doesn't tell a party of its position: the other's pending stores make its count of one that hasn't handed it over."""
        if access.kind != "load" or hart == THIRD or not self.is_whole(hart, access):
            return
        j = self.tag_position(access.addr, self.counts.count[hart])
        waiting = sum(self.is_whole(1 - hart, store) for store in self.machine.pending[1 - hart])
        i = self.counts.count[1 - hart] - waiting
        if not self.queue.tells(hart, j, access.loaded) and not 0 <= i <= j - self.gap(1 - hart):
            self.broken.add("look")

    def try_codec(self):
        """What tells a party that it has a position doesn't tell the other that it has the one that it will be handed."""
        p, k = self.draw.below(2), self.draw.below(2**33)
        if self.queue.tells(1 - p, k + self.gap(p), self.queue.word(self.draw, p, k)):
            self.broken.add(self.queue.law())


# ---- wrong protocols


class Alike(Slots):
    """Slots whose zero says that they are free, and full too."""

    def tells(self, p, k, v):
        return p == RECEIVER or v == 0


class SenderOwnsMore(Telling):
    """the sender owns one more"""

    breaks = ("window", "publication", "publication_of_tag", "delivery", "in_order", "in_order_as_learned", "look")
    seldom_breaks = ("handing_back",)
    queues = OF_FEW

    def end(self, p, counts):
        return self.room(p, counts) + (p == SENDER)


class ReceiverOwnsMore(Telling):
    """the receiver owns one more"""

    breaks = ("window", "publication", "publication_of_tag", "delivery", "in_order", "in_order_as_learned", "look")
    seldom_breaks = ("handing_back",)

    def end(self, p, counts):
        return self.room(p, counts) + (p == RECEIVER)


class FilledAfterTheTag(Telling):
    """the rest of a slot is filled after its tag is stored"""

    breaks = ("delivery", "handing_back", "in_order_as_learned")
    seldom_breaks = ("in_order",)
    holds = ("window", "publication", "publication_of_tag", "look")
    queues = tuple(queue for queue in QUEUES if queue.width > queue.tag_width)

    def drawn_position(self, p):
        return max(super().drawn_position(p) - self.draw.below(2), 0)

    def owns_rest(self, p, counts, x):
        if not self.is_slot_byte(x):
            return False
        k = self.first_position(x, max(counts.count[p] - 1, 0))
        return k < self.end(p, counts) and not self.is_tag_byte(k, x)


class AnyTag(Telling):
    """the tag of any position that is owned may come first"""

    breaks = ("window", "publication", "look")
    seldom_breaks = ("publication_of_tag", "delivery", "handing_back", "in_order")

    def moves_on(self, p, counts, access):
        return any(self.is_tag_store(p, k, access) for k in range(counts.count[p], min(self.end(p, counts), counts.count[p] + self.queue.size)))


class TellsNothing(Telling):
    """a tag may be stored that doesn't tell"""

    breaks = ("window", "publication", "publication_of_tag", "delivery", "in_order", "look")
    seldom_breaks = ("handing_back",)

    def is_tag_store(self, p, n, access):
        return access.addr == self.queue.tag_of(n) and access.width == self.queue.tag_width

    def drawn_word(self, p, k):
        return self.draw.one_of((0, super().drawn_word(p, k), super().drawn_word(p, k)))


class ThirdHart(Telling):
    """a third hart stores to slots"""

    breaks = ("delivery", "handing_back", "waiting", "in_order", "in_order_as_learned", "look")
    seldom_breaks = ("window", "publication", "publication_of_tag")

    def may_third(self, access):
        return True


class PartOfATag(Telling):
    """a byte of an owned slot's tag may be stored"""

    breaks = ("window", "publication_of_tag", "delivery", "look")
    seldom_breaks = ("publication", "in_order")
    queues = tuple(queue for queue in QUEUES if queue.tag_width > 1)

    def owns_rest(self, p, counts, x):
        return self.is_slot_byte(x) and self.first_position(x, counts.count[p]) < self.end(p, counts) \
            or x in self.queue.element_bytes() and self.tag_position(x, counts.count[p]) < self.end(p, counts)

    def fills_owned(self, p, counts, access):
        return super().fills_owned(p, counts, access) and not self.is_whole(p, access)


class ToldOfMore(Telling):
    """a tag tells of one position more"""

    breaks = ("window", "publication", "publication_of_tag", "delivery", "handing_back", "in_order", "in_order_as_learned", "look")

    def told(self, p, j):
        return super().told(p, j) + 1


class NumbersStay(Telling):
    """positions are numbered mod m where the size is 1 mod m"""

    breaks = ("window", "publication", "publication_of_tag", "delivery", "in_order", "look", "numbers_tell")
    seldom_breaks = ("handing_back",)
    queues = (Slots(1, 8, 4, 4, 2**32), Slots(5, 8, 4, 4, 4), Slots(3, 8, 4, 4, 2))


class BothAlike(Telling):
    """a zero tells both parties"""

    breaks = ("window", "publication", "publication_of_tag", "delivery", "in_order", "in_order_as_learned", "look", "zero_tells")
    seldom_breaks = ("handing_back",)
    queues = tuple(Alike(*queue) for queue in QUEUES if queue.law() == "zero_tells")


class RoundsAlike(Telling):
    """bits of a full slot are those of the slot free in the next round"""

    breaks = ("window", "publication", "publication_of_tag", "delivery", "in_order", "look", "phases_tell")
    seldom_breaks = ("handing_back",)
    queues = (Slots(1, 8, 4, 4, mask=3, rounds=((0, 1), (1, 2))), Slots(3, 8, 4, 4, mask=3, rounds=((2, 1), (0, 2))))


class PendingAtTheStart(Telling):
    """stores to slots are pending at the start"""

    breaks = ("in_order", "look")
    seldom_breaks = ("window", "publication", "publication_of_tag", "delivery")

    def pending_places(self):
        return (*range(self.queue.slots, self.queue.slots + self.queue.size * self.queue.width), *self.queue.element_bytes())


class LearnedAfterTheAmo(Telling):
    """the receiver learns of a record as it reads it after the AMO that tells it, which may have handed it back"""

    breaks = ("in_order_as_learned",)
    holds = tuple(law for law in Telling.laws if law != "in_order_as_learned")
    learns_what_stood_before = False


PROTOCOLS = (Telling, SenderOwnsMore, ReceiverOwnsMore, FilledAfterTheTag, AnyTag, TellsNothing, ThirdHart, PartOfATag, ToldOfMore,
             NumbersStay, BothAlike, RoundsAlike, PendingAtTheStart, LearnedAfterTheAmo)
