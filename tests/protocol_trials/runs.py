"""A drawn run of the machine whose entries keep a protocol between two parties, and the laws that both protocols share.

The counts are functions of the entries, as in queue_parties/specs. A protocol says by `may_store` which stores a party may make, by
`may_third` which ones a third hart may, and by `moved` and `learned` what an access makes of a count. The laws are tried after each
entry, on one byte of each slot, which is drawn. The machine has bytes of memory, and a FIFO buffer of pending stores for each of three harts.
"""

from random import Random
from typing import NamedTuple

HARTS = range(3)
SENDER, RECEIVER, THIRD = HARTS
# who goes on is one of these
RUNNING = (SENDER, RECEIVER, SENDER, RECEIVER, THIRD)
# a count that moves on by more than this at once has run away: the window is broken, and the rest of the run tells no more
FAR = 64


class Draw(Random):
    """Draws among n numbers, from a number to another one, and one of a sequence: by `random()` alone, whose numbers for a seed are the same in every
    version of Python, and which is the fastest."""

    def below(self, n):
        return int(self.random() * n)

    def between(self, first, last):
        return first + int(self.random() * (last + 1 - first))

    def one_of(self, sequence):
        return sequence[int(self.random() * len(sequence))]


class Access(NamedTuple):
    """A load of `loaded`, a store of `value`, an exchange of the two by an AMO, or a landing of the hart's oldest pending store."""

    kind: str
    addr: int = 0
    width: int = 0
    loaded: int = 0
    value: int = 0

    def writes(self):
        """Whether it changes bytes: an AMO that writes the word that it read doesn't."""
        return self.kind == "store" or self.kind == "exchange" and self.value != self.loaded

    def bytes(self):
        return range(self.addr, self.addr + self.width)


class Machine:
    """Memory, the pending stores of each hart, how many it made and how many of them landed, and at which entry it last wrote to a byte."""

    def __init__(self, bound):
        self.memory, self.bound, self.time = {}, bound, 0
        self.pending = [[] for _ in HARTS]
        self.stored, self.landed = [0 for _ in HARTS], [0 for _ in HARTS]
        self.written = [{} for _ in HARTS]

    def put(self, addr, width, value):
        for i in range(width):
            self.memory[addr + i] = value >> 8 * i & 255

    def read_byte(self, hart, x):
        for store in reversed(self.pending[hart]):
            if store.addr <= x < store.addr + store.width:
                return store.value >> 8 * (x - store.addr) & 255
        return self.memory.get(x, 0)

    def read_bytes(self, hart, addr, width):
        return [self.read_byte(hart, addr + i) for i in range(width)]

    def read(self, hart, addr, width):
        return int.from_bytes(self.read_bytes(hart, addr, width), "little")

    def is_legal(self, hart, access):
        """A store needs room in the buffer, an AMO an empty one, and a landing a pending store."""
        pending = len(self.pending[hart])
        if access.kind == "store":
            return pending < self.bound
        return access.kind == "load" or (access.kind == "land") == (pending > 0)

    def perform(self, hart, access):
        self.time += 1
        if access.writes():
            for x in access.bytes():
                self.written[hart][x] = self.time
        if access.kind == "store":
            self.pending[hart].append(access)
            self.stored[hart] += 1
        elif access.kind == "exchange":
            self.put(access.addr, access.width, access.value)
        elif access.kind == "land":
            store = self.pending[hart].pop(0)
            self.put(store.addr, store.width, store.value)
            self.landed[hart] += 1

    def is_only_writer(self, hart, x):
        """Whether no other hart has a pending store over the byte."""
        return not any(x in store.bytes() for other in HARTS if other != hart for store in self.pending[other])

    def has_written(self, hart, x, time):
        """Whether the hart has written to the byte since then."""
        return self.written[hart].get(x, 0) > time


class Counts(NamedTuple):
    """What the sender published and the receiver took; and what each knows of the other's."""

    count: tuple
    known: tuple

    def with_count(self, p, n):
        return self._replace(count=(n, self.count[1]) if p == SENDER else (self.count[0], n))

    def with_known(self, p, n):
        return self._replace(known=(n, self.known[1]) if p == SENDER else (self.known[0], n))


class Run:
    """A run: `queue` is drawn among the protocol's, and `broken` gets the laws that fail."""

    # laws that a wrong protocol breaks in many runs and in few, and those that hold of it nevertheless. Of the others nothing is said
    breaks = seldom_breaks = holds = ()
    queues = ()
    # the law of the store that moved a count
    published_with = None
    # whether a party hands over what its hart reads after the entry that moves its count, or before
    hands_what_stands_after = False
    # whether the receiver learns of a record as its hart reads it before the entry that tells it, or after
    learns_what_stood_before = False

    def __init__(self, draw):
        self.draw, self.broken, self.is_over = draw, set(), False
        self.queue = draw.one_of(self.queues)
        self.machine = Machine(draw.one_of((1, 2, 4, 8)))
        self.counts = self.opened(draw.one_of((0, 7, 2**16 - 3, 2**32 - 3)))
        end = self.queue.slots + self.queue.size * self.queue.width
        self.beside = range(end, end + 8)
        for hart in HARTS:
            if draw.random() < 0.3:
                self.machine.perform(hart, Access("store", draw.one_of(self.pending_places()), 1, 0, draw.below(256)))
        self.machine.time = 0
        self.machine.written = [{} for _ in HARTS]
        # for a count of each party how many stores its hart had made, at most, while the count was that; and with the next store
        self.made = [{self.counts.count[p]: self.machine.stored[p]} for p in (SENDER, RECEIVER)]
        self.made_next = [{}, {}]
        # for a position past which a party moved: the entry, and the bytes of its slot as its hart read them there
        self.passed = [{}, {}]
        self.sent, self.took, self.leaves = self.waiting_records(self.counts.count[RECEIVER]), [], True
        # the records of which the receiver may learn, and of how many it has
        self.to_learn, self.learns = self.waiting_records(self.counts.known[RECEIVER]), 0
        self.waiting = {k: self.record(THIRD, k) for k in range(self.counts.count[RECEIVER], self.counts.count[SENDER])}

    # ---- what a protocol adds

    def opened(self, first):
        """Lays the queue into memory, and gives the counts of the start."""
        raise NotImplementedError

    def pending_places(self):
        """Where a store may be pending at the start."""
        return self.beside

    def waiting_records(self, k):
        return [self.record(SENDER, k) for k in range(k, self.counts.count[SENDER])]

    def is_whole(self, p, access):
        """Whether a store of the party's hart is one that moves its count."""
        raise NotImplementedError

    def moved(self, p, n, access):
        raise NotImplementedError

    def learned(self, p, counts, access):
        raise NotImplementedError

    def may_store(self, p, counts, access):
        raise NotImplementedError

    def may_third(self, access):
        return all(self.is_outside(x) for x in access.bytes())

    def readers(self, p):
        """The harts that read what was handed to a party as the other handed it over."""
        return (p,)

    # ---- positions

    def gap(self, p):
        """How far on the position is that a party hands to the other."""
        return 0 if p == SENDER else self.queue.size

    def room(self, p, counts):
        """A party owns the positions from its count up to here, as the laws say it."""
        return counts.known[p] + (self.queue.capacity if p == SENDER else 0)

    def end(self, p, counts):
        """The same, as the protocol says it."""
        return self.room(p, counts)

    def slot_of(self, k):
        return self.queue.slots + self.queue.width * (k % self.queue.size)

    def record(self, hart, k):
        return self.machine.read_bytes(hart, self.slot_of(k), self.queue.width)

    def is_slot_byte(self, x):
        return 0 <= x - self.queue.slots < self.queue.size * self.queue.width

    def is_outside(self, x):
        return not self.is_slot_byte(x)

    def first_position(self, x, n):
        """The first position from n on in whose slot the byte lies."""
        return n + ((x - self.queue.slots) // self.queue.width - n) % self.queue.size

    # ---- entries

    def counts_next(self, hart, access):
        counts = self.counts
        if hart == THIRD or access.kind == "land":
            return counts
        if access.kind != "store":
            counts = self.learned(hart, counts, access)
        if access.kind != "load" and self.is_whole(hart, access):
            counts = counts.with_count(hart, self.moved(hart, counts.count[hart], access))
        return counts

    def keeps(self, hart, access):
        if access.kind in ("load", "land"):
            return True
        if hart == THIRD:
            return self.may_third(access)
        counts = self.learned(hart, self.counts, access) if access.kind == "exchange" else self.counts
        return self.may_store(hart, counts, access)

    def drawn_access(self, hart):
        """An access that the protocol may allow."""
        raise NotImplementedError

    def load(self, hart, addr, width):
        return Access("load", addr, width, self.machine.read(hart, addr, width))

    def store(self, x, width, value=None):
        """A store over the byte x, of what is drawn unless it is given."""
        return Access("store", x - x % width, width, 0, self.draw.below(256**width) if value is None else value)

    def exchange(self, hart, x, value=None):
        """An AMO over the byte x, which writes what it read unless told otherwise."""
        old = self.machine.read(hart, x - x % 4, 4)
        return Access("exchange", x - x % 4, 4, old, old if value is None else value)

    def run(self, length):
        """The laws that fail in a run of up to this many entries, as many as are drawn and allowed."""
        self.try_codec()
        for _ in range(length):
            hart = self.draw.one_of(RUNNING)
            is_landing = self.machine.pending[hart] and self.draw.random() < 0.35
            access = Access("land") if is_landing else self.drawn_access(hart)
            if self.machine.is_legal(hart, access) and self.keeps(hart, access):
                self.perform(hart, access)
            if self.is_over:
                break
        return self.broken

    def perform(self, hart, access):
        """One entry, with all that the laws say of it."""
        old, new = self.counts, self.counts_next(hart, access)
        passes = range(0) if hart == THIRD else range(old.count[hart], new.count[hart])
        self.is_over = len(passes) > FAR
        if self.is_over:
            self.broken.add("window")
            return
        before = [self.record(hart, k) for k in passes]
        learned = range(old.known[RECEIVER], min(new.known[RECEIVER], old.known[RECEIVER] + 2 * self.queue.size))
        stood = [self.record(RECEIVER, k) for k in learned]
        self.look(hart, access, new)
        self.machine.perform(hart, access)
        self.counts = new
        if hart != THIRD:
            after = [self.record(hart, k) for k in passes] if self.hands_what_stands_after else before
            self.passed[hart].update((k, (self.machine.time, record)) for k, record in zip(passes, after))
            self.note_stores(hart, access, old)
            if hart == SENDER:
                self.send(after)
            else:
                self.take(access, before)
        self.try_learning(stood if self.learns_what_stood_before else [self.record(RECEIVER, k) for k in learned])
        self.try_laws(hart, access, old)

    def note_stores(self, p, access, old):
        self.made[p][self.counts.count[p]] = self.machine.stored[p]
        if access.kind == "store" and self.counts.count[p] != old.count[p]:
            self.made_next[p][old.count[p]] = self.machine.stored[p]

    def send(self, records):
        self.sent += records
        self.to_learn += records

    def take(self, access, records):
        """The records that the receiver takes are a beginning of those that waited and were sent, if it left the slots to the sender."""
        self.leaves = self.leaves and not self.touches_records(access)
        for record in records:
            self.took.append(record)
            if self.leaves and self.sent[len(self.took) - 1:len(self.took)] != [record]:
                self.broken.add("in_order")

    def touches_records(self, access):
        """Whether the receiver's access is one after which nothing is said of the order of what it takes."""
        return access.writes() and any(self.is_slot_byte(x) for x in access.bytes())

    # ---- laws

    def try_codec(self):
        """Tries what the protocol says of its words, of no run."""

    def look(self, hart, access, new):
        """Tries what the protocol says of a look, before the entry."""

    def try_laws(self, hart, access, old):
        if not self.is_window():
            self.broken.add("window")
        if access.kind in ("load", "exchange") and hart != THIRD:
            self.try_publication(1 - hart)
        self.try_handed(SENDER, "delivery")
        self.try_handed(RECEIVER, "handing_back")
        if self.waiting:
            self.try_waiting()

    def try_waiting(self):
        """A record that waited at the start is read as it was there, until it is taken, unless the receiver's hart stores there."""
        offset, reader = self.draw.below(self.queue.width), self.draw.one_of(HARTS)
        for k in [k for k in self.waiting if k < self.counts.count[RECEIVER]]:
            del self.waiting[k]
        for k, record in self.waiting.items():
            self.try_byte("waiting", self.slot_of(k) + offset, record[offset], reader, RECEIVER, 0)

    def try_learning(self, records):
        """The records of which the receiver learns are a beginning of those that waited and were published."""
        if self.to_learn[self.learns:self.learns + len(records)] != records:
            self.broken.add("in_order_as_learned")
        self.learns += len(records)

    def is_window(self):
        (published, taken), (known_taken, known_published) = self.counts
        return known_taken <= taken <= known_published <= published <= known_taken + self.queue.capacity

    def try_publication(self, p):
        """Of what the party's hart had stored all has landed, as far as the other knows of more than the count there."""
        known, landed = self.counts.known[1 - p], self.machine.landed[p]
        if any(n < known and stored > landed for n, stored in self.made[p].items()):
            self.broken.add("publication")
        if any(n < known and stored > landed for n, stored in self.made_next[p].items()):
            self.broken.add(self.published_with)

    def try_handed(self, p, law):
        """What a party handed over, and the other owns, is read as it was handed over, unless the other wrote there since."""
        if not self.passed[p]:
            return
        to, gap = 1 - p, self.gap(p)
        offset, reader = self.draw.below(self.queue.width), self.draw.one_of(self.readers(to))
        count, room = self.counts.count[to], self.room(to, self.counts)
        for k in [k for k in self.passed[p] if k + gap < count]:
            del self.passed[p][k]
        for k, (time, record) in self.passed[p].items():
            if k + gap < room:
                self.try_byte(law, self.slot_of(k) + offset, record[offset], reader, to, time)

    def try_byte(self, law, x, value, reader, writer, time):
        if not self.machine.has_written(writer, x, time) and self.machine.read_byte(reader, x) != value:
            self.broken.add(law)
