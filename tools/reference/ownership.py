"""Drawn runs of a litmus test, each held against a queue's protocol, of ownership or of slots that tell (docs/queues.md), for the command `queue`."""

from collections import namedtuple

import certificates
import tags
from draws import event_of, runs_of
from machine import MEMORY, Machine, byte_read
from shrinking import part_of

LOADS, STORES = {"load": 4, "load2": 2, "load1": 1}, {"store": 4, "store2": 2, "store1": 1}
MOST = 2**64 - 1

# `place` is how many accesses come before it, and `described` says if the hart might make the store, were every slot its own; of a party `before`
# is what it stored last to its own index, or to a tag, and what it found at its last look at the other's, or at the tag of its next position:
# each a value and a pc, or None
Breach = namedtuple("Breach", "place hart pc address width value owned described before")
# a load by which the receiver finds another byte than was sent of the position: `byte` is its address
# and `handed_back` the pc at which its slot was handed back before, or None
Loss = namedtuple("Loss", "hart pc address width value position byte sent handed_back")


class Counts:
    """How far the parties of a queue have come, each by its hart."""

    def __init__(self, queue, start):
        self.queue = queue
        self.own = {queue.sender: start, queue.receiver: start}

    def is_slot_byte(self, byte):
        return self.queue.slots <= byte < self.queue.slots + self.queue.size * self.queue.width

    def position(self, own, byte):
        """The first position from this one on in whose slot the byte lies."""
        return self.next_of(own, (byte - self.queue.slots) // self.queue.width)

    def next_of(self, own, slot):
        """The first position from this one on that lies in the slot."""
        return own + (slot - own) % self.queue.size

    def last_told(self, byte):
        """The last position of which the receiver was told whose record has the byte, of those of the last round; or None."""
        known = self.told()
        position = self.position(max(known - self.queue.size, 0), byte) if self.is_slot_byte(byte) else known
        return position if position < known else None

    def may_store(self, *store):
        """Whether a hart may store that: the hart, the address, the width and the value."""
        return self.allows(self.owned(store[0]), *store)

    def is_described(self, *store):
        """Whether it might if it owned every slot, from its own position on."""
        hart = store[0]
        return hart in self.own and self.allows((self.own[hart], self.end_from(hart, self.own[hart] + self.queue.size)), *store)


class IndexCounts(Counts):
    """Of a queue with indices, and what each party knows of the other."""

    # an AMO that writes the word that it read is a load alone
    is_load_alone = True

    def __init__(self, queue, start):
        super().__init__(queue, start)
        self.known = dict(self.own)

    def told(self):
        """Before which position the receiver was told of all."""
        return self.known[self.queue.receiver]

    def index(self, hart):
        return self.queue.head if hart == self.queue.sender else self.queue.tail

    def other_index(self, hart):
        return self.queue.tail if hart == self.queue.sender else self.queue.head

    def word(self, count):
        return self.queue.base + self.queue.scale * ((count + self.queue.offset) % self.queue.modulus)

    def least(self, count, word):
        """The least count from this one on that the word stands for."""
        turned = max(word - self.queue.base, 0) // self.queue.scale
        return count + (turned + self.queue.modulus - (count + self.queue.offset) % self.queue.modulus) % self.queue.modulus

    def owned(self, hart):
        """The first position that a hart owns, and the first after it that it doesn't; of a third hart nothing."""
        return (self.own[hart], self.end_from(hart, self.known[hart])) if hart in self.own else None

    def end_from(self, hart, known):
        """The first position that a party doesn't own that knows of so many of the other's."""
        return known + (self.queue.capacity if hart == self.queue.sender else 0)

    def loaded(self, hart, address, width, value):
        if hart in self.own and self.is_look(hart, address, width):
            self.known[hart] = self.least(self.known[hart], value)

    def is_own(self, hart, address, width):
        return hart in self.own and (address, width) == (self.index(hart), self.queue.index_width)

    def is_look(self, hart, address, width):
        return (address, width) == (self.other_index(hart), self.queue.index_width)

    def allows(self, owned, hart, address, width, value):
        """Whether a hart that owns these positions may store that."""
        if self.is_own(hart, address, width):
            count = self.least(owned[0], value)
            if self.word(count) == value and count <= owned[1]:
                return True
        return all(self.may_fill(owned, byte) for byte in range(address, address + width))

    def may_fill(self, owned, byte):
        if self.is_slot_byte(byte):
            return owned is not None and self.position(owned[0], byte) < owned[1]
        return not any(place <= byte < place + self.queue.index_width for place in (self.queue.head, self.queue.tail))

    def stored(self, hart, address, width, value):
        if self.is_own(hart, address, width):
            self.own[hart] = self.least(self.own[hart], value)


class TagCounts(Counts):
    """Of a queue with tags, and up to which position each party was told that it owns them."""

    is_load_alone = False

    def __init__(self, queue, start):
        super().__init__(queue, start)
        self.end = {queue.sender: start + queue.size, queue.receiver: start}

    def owned(self, hart):
        return (self.own[hart], self.end[hart]) if hart in self.own else None

    def end_from(self, hart, known):
        """The first position that a party doesn't own that knows of so many of the other's."""
        return known + (self.queue.size if hart == self.queue.sender else 0)

    def told(self):
        """Before which position the receiver was told of all."""
        return self.end[self.queue.receiver]

    def is_tag_byte(self, byte):
        return 0 <= byte - tags.tag_of(self.queue, (byte - self.queue.slots) // self.queue.width) < self.queue.tag_width

    def is_element_byte(self, byte):
        return self.queue.tags <= byte < self.queue.tags + self.queue.size * self.queue.tag_stride

    def element(self, byte):
        """The element in which a byte lies, and where in it."""
        return divmod(byte - self.queue.tags, self.queue.tag_stride)

    def is_look(self, hart, address, width):
        return (address, width) == (tags.tag_of(self.queue, self.own[hart]), self.queue.tag_width)

    def is_own(self, hart, address, width):
        is_whole = width == self.queue.tag_width and self.element(address)[1] == self.queue.tag_offset
        return hart in self.own and is_whole and self.is_element_byte(address)

    def loaded(self, hart, address, width, value):
        if self.is_own(hart, address, width):
            position = self.next_of(self.own[hart], self.element(address)[0])
            if tags.tells_by(self.queue.size, self.queue.codec, tags.party_in(self.queue, hart), position, value):
                self.end[hart] = max(self.end[hart], position + 1)

    def allows(self, owned, hart, address, width, value):
        """Whether a hart that owns these positions may store that."""
        if self.is_own(hart, address, width) and self.next_of(owned[0], self.element(address)[0]) == owned[0] < owned[1]:
            party = tags.party_in(self.queue, hart)
            handed = owned[0] + (0 if party == certificates.SENDER else self.queue.size)
            if tags.tells_by(self.queue.size, self.queue.codec, certificates.other(party), handed, value):
                return True
        return all(self.may_fill(owned, byte) for byte in range(address, address + width))

    def may_fill(self, owned, byte):
        if not self.is_slot_byte(byte):
            return not self.is_element_byte(byte)
        return owned is not None and self.position(owned[0], byte) < owned[1] and not self.is_tag_byte(byte)

    def stored(self, hart, address, width, value):
        if self.is_own(hart, address, width):
            self.own[hart] += 1


def before(counts, hart, done):
    """What a party stored and found last, of these accesses with their pcs; of a third hart None."""
    if hart not in counts.own:
        return None
    stored = looked = None
    for (by, address, width, loaded, value), pc in done:
        if by == hart and value is not None and counts.is_own(hart, address, width):
            stored = value, pc
        if by == hart and loaded is not None and counts.is_look(hart, address, width):
            looked = loaded, pc
    return stored, looked


class Sent:
    """Of the bytes of records what the sender read there just after it published them, until the receiver stores there."""

    def __init__(self):
        # by byte: the positions of one publication, as the first and the one after the last, and what was read; the latest comes last
        self.of = {}

    def publish(self, counts, first, end, read):
        """The sender published the positions from the first on and before the end."""
        queue = counts.queue
        for slot in range(queue.size):
            start = queue.slots + slot * queue.width
            if start >= MEMORY:
                break
            if counts.next_of(first, slot) >= end:
                continue
            for byte in range(start, min(start + queue.width, MEMORY)):
                self.of.setdefault(byte, []).append((first, end, read(byte)))

    def store_over(self, address, width):
        for byte in range(address, address + width):
            self.of.pop(byte, None)

    def at(self, position, byte):
        return next((read for first, end, read in reversed(self.of.get(byte, ())) if first <= position < end), None)


def access_of(outcome):
    """A load, a store or an AMO of a hart: the hart, the address, the width, what is loaded and what is stored, each a number or None;
    of another entry None."""
    name, *numbers = outcome.split()
    if name in LOADS:
        hart, address, value = map(int, numbers)
        return hart, address, LOADS[name], value, None
    if name in STORES:
        hart, address, value = map(int, numbers)
        return hart, address, STORES[name], None, value
    if name == "amo":
        hart, address, old, new = map(int, numbers)
        return hart, address, 4, old, new
    return None


class Runs:
    """A test's runs, judged by one queue. What an event makes of a state is kept."""

    def __init__(self, test, capacity, queue, start):
        self.harts, self.machine, self.queue, self.start = len(test.codes), Machine(test, capacity), queue, start
        self.known = {}

    def step(self, state, event):
        if (state, event) not in self.known:
            self.known[state, event] = self.machine.step(state, event)
        return self.known[state, event]

    def counts(self):
        return (TagCounts if isinstance(self.queue, tags.TaggedQueue) else IndexCounts)(self.queue, self.start)

    def entries(self, events):
        """The accesses of a run's entries, each with the machine's state before it and after it."""
        state = self.machine.opening
        for event in events:
            outcome, is_entry, after = self.step(state, event)
            access = access_of(outcome) if is_entry and event[0] == "a" else None
            if access:
                yield access, state, after
            state = after

    def judged(self, events):
        """The first breach of a run, or None, and the counts."""
        counts, done = self.counts(), []
        for access, state, _ in self.entries(events):
            breach = self.breach(access, state, counts, done)
            if breach:
                return breach, counts
            done.append((access, state[0][access[0]][0]))
        return None, counts

    def breach(self, access, state, counts, done):
        """What an entry of a hart breaks, or None; the counts take it in. `done` has the accesses before it."""
        hart, address, width, loaded, value = access
        if loaded is not None:
            counts.loaded(hart, address, width, loaded)
        if value is None:
            return None
        is_free = counts.is_load_alone and value == loaded
        if not is_free and not counts.may_store(hart, address, width, value):
            return Breach(len(done), hart, state[0][hart][0], address, width, value, counts.owned(hart),
                          counts.is_described(hart, address, width, value), before(counts, hart, done))
        counts.stored(hart, address, width, value)
        return None

    def loss_after(self, events):
        """The first loss of a run after its breach, if that is described, or None."""
        breach, _ = self.judged(events)
        return self.loss(events, breach.place) if breach and breach.described else None

    def loss(self, events, since=-1):
        """The first load of a run, after the access of this number, by which the receiver finds another byte than was sent, or None."""
        counts, sent, queue, handed = self.counts(), Sent(), self.queue, []
        for place, (access, state, after) in enumerate(self.entries(events)):
            hart, address, width, loaded, value = access
            pc = state[0][hart][0]
            if loaded is not None:
                # a tag may be the record, of which its load tells
                counts.loaded(hart, address, width, loaded)
            if place > since and hart == queue.receiver and loaded is not None:
                for byte in range(address, address + width):
                    position = counts.last_told(byte)
                    was = None if position is None else sent.at(position, byte)
                    if was is not None and was != loaded >> 8 * (byte - address) & 255:
                        back = next((at for first, end, at in handed if first <= position < end), None)
                        return Loss(hart, pc, address, width, loaded, position, byte, was, back)
            if value is None:
                continue
            published, taken = counts.own[queue.sender], counts.own[queue.receiver]
            counts.stored(hart, address, width, value)
            if taken < counts.own[queue.receiver]:
                handed.append((taken, counts.own[queue.receiver], pc))
            if hart == queue.sender and published < counts.own[queue.sender]:
                _, _, _, pending, _ = after[0][hart]
                sent.publish(counts, published, counts.own[queue.sender], lambda byte: byte_read(pending, after[1], byte))  # pylint: disable=cell-var-from-loop
            if hart == queue.receiver and value != loaded:
                sent.store_over(address, width)
        return None

    def shows(self, events):
        """By which runs a breach may be shown: the same hart's first one, which both are described or neither is."""
        breach, _ = self.judged(events)
        return breach and (breach.hart, breach.described)


def drawn(runs, number, drawing):
    """The events of each run."""
    for numbers in runs_of(runs.harts, number, *drawing):
        yield [event_of(k, runs.harts) for k in numbers]


def trial(runs, number, drawing):
    """The events of the first run that breaks the protocol, made short, and its breach; or None, and how many positions the parties
    published and took in all of them."""
    published = taken = 0
    for events in drawn(runs, number, drawing):
        breach, counts = runs.judged(events)
        if breach:
            shown = breach.hart, breach.described
            events = part_of(events, lambda left: runs.shows(left) == shown)  # pylint: disable=cell-var-from-loop
            return (events, runs.judged(events)[0]), None
        published += counts.own[runs.queue.sender] - runs.start
        taken += counts.own[runs.queue.receiver] - runs.start
    return None, (min(published, MOST), min(taken, MOST))


def lost(runs, loss_of, number, drawing):
    """The events of the first run that loses a record, made short, and what it loses; or None. `loss_of` is which losses of a run count."""
    for events in drawn(runs, number, drawing):
        if loss_of(events):
            events = part_of(events, lambda left: loss_of(left) is not None)
            return events, loss_of(events)
    return None
