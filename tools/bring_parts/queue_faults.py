"""Which fault a run has, by what the program says of its store or load, and by the run's entries. A name is a claim: it is given only if these have all that
the name says."""

from dataclasses import dataclass

from bring_parts.queue_said import Before, HandedBackAt, Looked, Next, Stored


@dataclass(frozen=True)
class PublishedFirst:
    """The sender told of a position, and only then stores its record. `index` is the store that told of it."""
    index: object


@dataclass(frozen=True)
class Overwrites:
    """The sender stores to a slot when it owns no position: its last look at the receiver's index, or None, its last store to its own, or None, and how many of
    these it did since that look."""
    look: Looked
    head: Before
    since: int


@dataclass(frozen=True)
class Elsewhere:
    """The sender stores to another slot than those of the positions that it owns: its slot, its next position, and the last one that it owns."""
    slot: int
    next: int
    last: int


@dataclass(frozen=True)
class HandedBack:
    """The receiver loads from a slot that it handed back by this store, and did not look since."""
    index: object


@dataclass(frozen=True)
class OtherSlot:
    """The receiver loads from a slot that its last index did not hand back: its next position, and the store to its index."""
    position: int
    index: object


def count_of(queue, value):
    """The count for which an index's word stands, or None."""
    steps, rest = divmod(value - queue.base, queue.scale) if queue.scale else (0, 1)
    return None if rest or steps < 0 else (steps - queue.offset) % queue.modulus


def slot_of(queue, at):
    return (at - queue.slots) // queue.width


def tag_of(queue, at):
    """The first byte, and the bytes, of the tag of a slot."""
    return queue.tags + slot_of(queue, at) * queue.tag_stride + queue.tag_offset, queue.tag_width


def told(queue, hart, at, entries):
    """The stores of a party to what tells of a slot: its index, or the slot's tag."""
    where = tag_of(queue, at) if queue.has_tags else (queue.head if hart == queue.sender else queue.tail, queue.index_width)
    return [entry for entry in entries if entry.hart == hart and entry.stores_to(*where)]


def is_telling(queue, hart, entry):
    """Whether a sender's entry stores its index, or some tag."""
    where = [tag_of(queue, queue.slots + slot * queue.width) for slot in range(queue.size)] if queue.has_tags else [(queue.head, queue.index_width)]
    return entry.hart == hart and any(entry.stores_to(*each) for each in where)


def positions(queue, own):
    """The positions to which stores to an index moved it, all turns together, first that at which it opens; or None if a word stands for no count."""
    counts = [queue.start % queue.modulus, *(count_of(queue, entry.value) for entry in own)]
    if None in counts:
        return None
    found = [queue.start]
    for count, later in zip(counts, counts[1:]):
        found.append(found[-1] + (later - count) % queue.modulus)
    return found


def breaking(queue, named, said, entries):
    """The entry of the store that breaks a queue, of which the program says what was stored, and after how many of its hart's index; or None."""
    stored, following = said.one(Stored), said.one(Next)
    found = [entry for entry in entries if (entry.hart, entry.pc) == (named.hart, named.pc) and entry.is_store()
             and (entry.at, entry.width, entry.value) == (stored.at, stored.width, stored.value)]
    if queue.has_tags or not following:
        return next(reversed(found), None)
    moved = [(entry, positions(queue, told(queue, entry.hart, entry.at, entries[:entry.number]))) for entry in found]
    return next((entry for entry, own in moved if own and own[-1] == following.position), None)


def overwriting(queue, store, entries, loaded):
    """Of a sender that owns no position the store that loses a record: by the instruction of the first one that breaks the queue, with no look between; or
    that first one."""
    for entry in entries[store.number:] if loaded else ():
        if entry.hart == store.hart and entry.is_load() and entry.meets(queue.tail, queue.index_width):
            break
        if (entry.hart, entry.pc) == (store.hart, store.pc) and entry.stores_to(loaded.at, loaded.width):
            return entry
    return store


def is_of_last_step(queue, at, found):
    """Whether a slot is that of a position of which the last store to an index told, and the one before didn't."""
    return (found[-1] - 1 - slot_of(queue, at)) % queue.size < min(found[-1] - found[-2], queue.size)


def is_published(queue, store, own, before):
    """Whether the sender's last index, or the slot's tag, told of the slot of a store, nothing was stored there in the turn of the slots before that, and no
    such store came before the first one that told of any: that would be to a wrong slot."""
    first = next(entry.number for entry in before if is_telling(queue, store.hart, entry))
    if any((entry.hart, entry.pc) == (store.hart, store.pc) for entry in before[:first]):
        return False
    begin = own[-2].number if queue.has_tags and len(own) > 1 else -1
    if not queue.has_tags:
        found = positions(queue, own)
        if found is None or not is_of_last_step(queue, store.at, found):
            return False
        # the store by which the turn of the slots began that the last one ended
        begin = next((entry.number for entry, position in reversed([*zip(own, found[1:])]) if found[-1] - position >= queue.size), -1)
    return not any(entry.hart == store.hart and entry.stores_to(store.at, store.width) for entry in before if begin < entry.number < own[-1].number)


def of_store(queue, store, entries, said):
    """The fault of a sender's store to a slot, of which the program says this, or None."""
    before = entries[:store.number]
    own = told(queue, store.hart, store.at, before)
    if own and is_published(queue, store, own, before):
        return PublishedFirst(own[-1])
    stored, following, look = said.one(Stored), said.one(Next), said.one(Looked)
    if queue.has_tags or not following:
        return None
    if stored.last is not None:
        slot, owned = slot_of(queue, store.at), stored.last - following.position + 1
        return Elsewhere(slot, following.position, stored.last) if (slot - following.position) % queue.size >= owned else None
    looks = [entry.number for entry in before if look and (entry.hart, entry.pc, entry.value) == (store.hart, look.pc, look.value) and entry.is_load()]
    return Overwrites(look, said.one(Before), sum(entry.number > looks[-1] for entry in own) if looks else 0)


def of_load(queue, load, entries, said):
    """The fault of a receiver's load from a slot, of which the program says this, or None."""
    own = told(queue, load.hart, load.at, [entry for entry in entries if entry.hart == load.hart and entry.number < load.number])
    handed_back = said.one(HandedBackAt)
    found = None if queue.has_tags else positions(queue, own)
    if not own or not queue.has_tags and found is None:
        return None
    if queue.has_tags or is_of_last_step(queue, load.at, found):
        return HandedBack(own[-1]) if handed_back and own[-1].pc == handed_back.pc else None
    return OtherSlot(found[-1], own[-1])
