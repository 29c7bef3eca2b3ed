"""The protocol of ownership, of two indices (slot_queue/specs), and wrong protocols, each of which changes one definition."""

from typing import NamedTuple

from .runs import HARTS, RECEIVER, SENDER, THIRD, Counts, Run

HEAD, TAIL, SLOTS = 0, 64, 128
# laws that speak of indices alone, and those that speak of slots
OF_INDICES = ("window", "publication", "publication_of_store", "other_memory", "own_index", "look")
OF_SLOTS = ("delivery", "handing_back", "waiting", "in_order", "in_order_as_learned")


class Queue(NamedTuple):
    """How an index stands for a count, and the slots."""

    index_width: int
    modulus: int
    size: int
    width: int
    capacity: int
    base: int = 0
    scale: int = 1
    offset: int = 0
    index: tuple = (HEAD, TAIL)
    slots: int = SLOTS

    def index_word(self, n):
        return self.base + self.scale * ((n + self.offset) % self.modulus)

    def least(self, n, v):
        return n + (max(v - self.base, 0) // self.scale + (self.modulus - (n + self.offset) % self.modulus)) % self.modulus


QUEUES = (
    Queue(4, 2**32, size=1, width=1, capacity=1),
    Queue(4, 2**32, size=3, width=6, capacity=2, offset=2**32 - 1),
    Queue(2, 2**16, size=4, width=1, capacity=4),
    Queue(1, 2**8, size=2, width=3, capacity=2, offset=2**8 - 1),
    # numbers of slots, byte offsets, pointers, numbers modulo twice the slots
    Queue(2, 5, size=5, width=2, capacity=4),
    Queue(4, 4, size=4, width=4, capacity=3, scale=4),
    Queue(4, 3, size=3, width=4, capacity=2, base=SLOTS, scale=4),
    Queue(1, 4, size=2, width=4, capacity=2, base=3, scale=2),
)


class Ownership(Run):
    """the protocol of ownership"""

    laws = (*OF_INDICES, *OF_SLOTS, "least_count")
    queues = QUEUES
    published_with = "publication_of_store"

    def __init__(self, draw):
        super().__init__(draw)
        # what is read of some bytes, each where nobody else has a pending store over it, and which count its hart's party had there
        self.noted = []

    def opened(self, first):
        queue, machine, draw = self.queue, self.machine, self.draw
        taken = first + draw.between(0, queue.capacity)
        published = draw.between(taken, first + queue.capacity)
        counts = Counts((published, taken), (first, draw.between(taken, published)))
        for p in (SENDER, RECEIVER):
            machine.put(queue.index[p], queue.index_width, queue.index_word(counts.count[p]))
        for x in range(queue.slots, queue.slots + queue.size * queue.width):
            machine.memory.setdefault(x, draw.below(256))
        return counts

    # ---- the protocol

    def is_whole(self, p, access):
        return (access.addr, access.width) == (self.queue.index[p], self.queue.index_width)

    def moved(self, p, n, access):
        return self.queue.least(n, access.value)

    def learned(self, p, counts, access):
        return counts.with_known(p, self.queue.least(counts.known[p], access.loaded)) if self.is_whole(1 - p, access) else counts

    def is_index_byte(self, p, x):
        return 0 <= x - self.queue.index[p] < self.queue.index_width

    def is_outside(self, x):
        return not (self.is_slot_byte(x) or self.is_index_byte(SENDER, x) or self.is_index_byte(RECEIVER, x))

    def owns_byte(self, p, counts, x):
        return self.is_slot_byte(x) and self.first_position(x, counts.count[p]) < self.end(p, counts)

    def moves_on(self, p, counts, access):
        n = self.queue.least(counts.count[p], access.value)
        return self.is_whole(p, access) and access.value == self.queue.index_word(n) and n <= self.end(p, counts)

    def fills_owned(self, p, counts, access):
        return all(self.is_outside(x) or self.owns_byte(p, counts, x) for x in access.bytes())

    def may_store(self, p, counts, access):
        return self.moves_on(p, counts, access) or self.fills_owned(p, counts, access)

    def keeps(self, hart, access):
        return access.kind == "exchange" and not access.writes() or super().keeps(hart, access)

    # ---- what is drawn

    def drawn_access(self, hart):
        queue, draw = self.queue, self.draw
        kind = draw.random()
        if hart == THIRD:
            x = draw.one_of((draw.one_of(self.beside), self.drawn_byte(), draw.one_of(queue.index)))
            return self.store(x, draw.one_of((1, 2, 4))) if kind < 0.7 else self.exchange(hart, x)
        if kind < 0.3:
            return self.load(hart, queue.index[1 - hart], queue.index_width)
        if kind < 0.5:
            return self.store(queue.index[hart], queue.index_width, self.drawn_word(hart))
        if kind < 0.85:
            x = self.owned_byte(hart) if draw.random() < 0.8 else draw.one_of(self.beside)
            return self.store(x, draw.one_of((1, 1, 2, 4)))
        return self.drawn_exchange(hart)

    def drawn_exchange(self, hart):
        draw, index = self.draw, self.queue.index
        x = draw.one_of((index[hart], index[1 - hart], self.owned_byte(hart), draw.one_of(self.beside)))
        return self.exchange(hart, x, draw.one_of((None, draw.below(2**32), self.drawn_word(hart))))

    def drawn_word(self, p):
        """A word for the own index, mostly of a count that the party may move to."""
        count, end = self.counts.count[p], self.end(p, self.counts)
        return self.queue.index_word(max(self.draw.one_of((count - 1, count + 1, count + 1, end, end, end + 2)), 0))

    def owned_byte(self, p):
        """A byte, mostly of a slot that the party owns."""
        queue, draw = self.queue, self.draw
        k = draw.between(max(self.counts.count[p] - 1, 0), max(self.counts.count[p], self.end(p, self.counts)))
        return self.slot_of(k) + draw.below(queue.width)

    def drawn_byte(self):
        return self.queue.slots + self.draw.below(self.queue.size * self.queue.width)

    # ---- laws

    def readers(self, p):
        return HARTS

    def look(self, hart, access, new):
        """At a load of the other's index its pending stores make its count of what is known then, if the index tells full from empty."""
        if access.kind != "load" or hart == THIRD or not self.tells_full():
            return
        n = new.known[hart]
        for store in self.machine.pending[1 - hart]:
            if self.is_whole(1 - hart, store):
                n = self.moved(1 - hart, n, store)
        if n != new.count[1 - hart]:
            self.broken.add("look")

    def tells_full(self):
        return self.queue.capacity < self.queue.modulus

    def try_laws(self, hart, access, old):
        super().try_laws(hart, access, old)
        self.try_own_index()
        self.try_other_memory()
        if self.draw.random() < 0.5:
            self.note()

    def try_codec(self):
        queue, n = self.queue, self.draw.below(2**33)
        j = n + self.draw.below(queue.modulus)
        if queue.least(n, queue.index_word(j)) != j:
            self.broken.add("least_count")

    def try_own_index(self):
        queue, p = self.queue, self.draw.below(2)
        if self.machine.read(p, queue.index[p], queue.index_width) != queue.index_word(self.counts.count[p]):
            self.broken.add("own_index")

    def note(self):
        """Notes what a party's hart reads somewhere, preferably where it has a store pending."""
        machine, draw = self.machine, self.draw
        p = draw.one_of((SENDER, RECEIVER))
        pending = machine.pending[p]
        x = draw.one_of(pending).addr if pending and draw.random() < 0.7 else draw.one_of((draw.one_of(self.beside), self.drawn_byte()))
        if machine.is_only_writer(p, x):
            self.noted = [*self.noted[-7:], (p, self.counts.count[p], x, machine.read_byte(p, x), machine.time)]

    def try_other_memory(self):
        """Once the other knows of more than a party's count was, all read what its hart read there, if nobody wrote there since."""
        reader = self.draw.one_of(HARTS)
        for p, count, x, value, time in self.noted:
            if count < self.counts.known[1 - p] and not any(self.machine.has_written(hart, x, time) for hart in HARTS):
                if self.machine.read_byte(reader, x) != value:
                    self.broken.add("other_memory")


# ---- wrong protocols


class SenderOwnsMore(Ownership):
    """the sender owns one more"""

    breaks = ("window", "delivery", "in_order_as_learned")
    seldom_breaks = ("look", "handing_back", "waiting", "in_order")

    def end(self, p, counts):
        return self.room(p, counts) + (p == SENDER)


class ReceiverOwnsMore(Ownership):
    """the receiver owns one more"""

    breaks = ("window", "handing_back", "in_order", "in_order_as_learned")
    seldom_breaks = ("look", "delivery")

    def end(self, p, counts):
        return self.room(p, counts) + (p == RECEIVER)


class StillOwned(Ownership):
    """a position is still owned once its count is stored"""

    breaks = ("delivery", "handing_back", "waiting", "in_order_as_learned")
    seldom_breaks = ("in_order",)
    holds = OF_INDICES

    def owns_byte(self, p, counts, x):
        return self.is_slot_byte(x) and self.first_position(x, max(counts.count[p] - 1, 0)) < self.end(p, counts)


class PastTheEnd(Ownership):
    """a count may pass the end of what is owned"""

    breaks = ("window", "look", "in_order", "in_order_as_learned")
    seldom_breaks = ("delivery", "handing_back")

    def moves_on(self, p, counts, access):
        n = self.queue.least(counts.count[p], access.value)
        return self.is_whole(p, access) and access.value == self.queue.index_word(n)


class NoCount(Ownership):
    """an index may get a word that stands for no count"""

    breaks = ("own_index",)
    holds = tuple(law for law in Ownership.laws if law != "own_index")
    queues = tuple(queue for queue in QUEUES if queue.base)

    def moves_on(self, p, counts, access):
        return self.is_whole(p, access) and self.queue.least(counts.count[p], access.value) <= self.end(p, counts)

    def drawn_word(self, p):
        return super().drawn_word(p) + self.draw.one_of((0, 0, 1))


class GoesBack(Ownership):
    """a count may go back by one"""

    breaks = ("window", "publication", "publication_of_store", "other_memory", "look", "delivery", "handing_back", "in_order", "in_order_as_learned")
    seldom_breaks = ("waiting",)
    queues = tuple(queue for queue in QUEUES if queue.modulus > queue.capacity + 1)

    def moved(self, p, n, access):
        return n - 1 if n and access.value == self.queue.index_word(n - 1) else super().moved(p, n, access)

    def moves_on(self, p, counts, access):
        n = self.moved(p, counts.count[p], access)
        return self.is_whole(p, access) and access.value == self.queue.index_word(n) and n <= self.end(p, counts)


class ThirdHart(Ownership):
    """a third hart stores to slots"""

    breaks = OF_SLOTS
    holds = OF_INDICES

    def may_third(self, access):
        return all(self.is_outside(x) or self.is_slot_byte(x) for x in access.bytes())


class PartOfAnIndex(Ownership):
    """a byte of the own index may be stored"""

    breaks = ("window", "publication", "publication_of_store", "other_memory", "own_index", "look", "delivery", "in_order_as_learned")
    seldom_breaks = ("handing_back", "in_order")
    queues = tuple(queue for queue in QUEUES if queue.index_width > 1)

    def may_store(self, p, counts, access):
        return super().may_store(p, counts, access) or access.width == 1 and self.is_index_byte(p, access.addr)

    def owned_byte(self, p):
        return self.queue.index[p] if self.draw.random() < 0.2 else super().owned_byte(p)


class AmosAreLoads(Ownership):
    """an AMO may write anything, as if it only loaded"""

    breaks = ("window", "publication", "publication_of_store", "other_memory", "own_index", "look", "delivery", "handing_back", "in_order_as_learned")
    seldom_breaks = ("waiting", "in_order")

    def keeps(self, hart, access):
        return access.kind == "exchange" or super().keeps(hart, access)


class MoreThanSlots(Ownership):
    """more is in use than there are slots"""

    breaks = OF_SLOTS
    holds = OF_INDICES
    queues = tuple(queue._replace(capacity=queue.capacity + 2) for queue in QUEUES if queue.modulus > queue.size + 2)


class FullLooksEmpty(Ownership):
    """an index tells all in use from none, though it doesn't"""

    breaks = ("look",)
    holds = tuple(law for law in Ownership.laws if law != "look")
    queues = tuple(queue._replace(modulus=queue.capacity) for queue in QUEUES)

    def tells_full(self):
        return True


class OverTheTail(Ownership):
    """the slots reach over the tail"""

    breaks = (*OF_INDICES, "delivery", "handing_back", "in_order_as_learned")
    seldom_breaks = ("waiting",)
    queues = tuple(queue._replace(index=(HEAD, SLOTS)) for queue in QUEUES)


class WordsTooLarge(Ownership):
    """the words of an index don't fit into its bytes"""

    breaks = (*OF_INDICES, "in_order_as_learned")
    seldom_breaks = ("delivery", "handing_back", "in_order")
    queues = tuple(queue._replace(modulus=256**queue.index_width + 1, offset=0) for queue in QUEUES if queue.base == 0 and queue.scale == 1)

    def opened(self, first):
        return super().opened(256**self.queue.index_width - self.queue.capacity - 1)


class Forgetful(Queue):
    """A queue whose indices are read without their offset."""

    def least(self, n, v):
        return n + (max(v - self.base, 0) // self.scale + (self.modulus - n % self.modulus)) % self.modulus


class OffsetForgotten(Ownership):
    """an index is read without its offset"""

    breaks = ("window", "publication", "other_memory", "look", "waiting", "in_order_as_learned", "least_count")
    queues = tuple(Forgetful(*queue) for queue in QUEUES if queue.offset)


class PendingAtTheStart(Ownership):
    """stores to slots are pending at the start"""

    breaks = ("waiting",)
    seldom_breaks = ("delivery", "handing_back", "in_order", "in_order_as_learned")
    holds = OF_INDICES

    def pending_places(self):
        return range(self.queue.slots, self.queue.slots + self.queue.size * self.queue.width)


PROTOCOLS = (Ownership, SenderOwnsMore, ReceiverOwnsMore, StillOwned, PastTheEnd, NoCount, GoesBack, ThirdHart, PartOfAnIndex, AmosAreLoads,
             MoreThanSlots, FullLooksEmpty, OverTheTail, WordsTooLarge, OffsetForgotten, PendingAtTheStart)
