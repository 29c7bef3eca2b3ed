"""What an answer says of runs, held against each entry of one: the protocol as docs/certificates.md and docs/tags.md have it, and the answer's lines
as docs/queue-answers.md and docs/progress.md have them. It shares no code with the crates
or the check. One rule is of no page, and was taken from an answer: nobody stores beside a tag in an element apart from the slots.
"""

from itertools import chain
from typing import NamedTuple

from machine import ENDED, byte_read


class Breach(Exception):
    """What a run does against the answer."""


class Access(NamedTuple):
    """What an entry loads and stores; None where it doesn't."""

    address: int
    width: int
    loaded: object
    stored: object

    def bytes(self):
        return range(self.address, self.address + self.width)


WIDTHS = {"load": 4, "load2": 2, "load1": 1, "store": 4, "store2": 2, "store1": 1}


def access_of(outcome):
    name, *numbers = outcome.split()
    if name == "amo":
        _, address, old, new = map(int, numbers)
        return Access(address, 4, old, new)
    if name not in WIDTHS:
        return None
    _, address, value = map(int, numbers)
    return Access(address, WIDTHS[name], value, None) if name.startswith("load") else Access(address, WIDTHS[name], None, value)


class Ghost(NamedTuple):
    """How far a queue has come: of sender and receiver the own count, and before which position each knows of its own; how many instructions
    each has executed since it moved on or had to wait; the bytes that were sent of records in use; the bytes that the sender wrote
    since it published the record before in the slot, and those that the receiver read; and how many instructions each has executed since both indices
    had landed and nothing moved."""

    own: tuple
    end: tuple
    idle: tuple
    sent: tuple
    fresh: frozenset
    seen: frozenset
    landed: object


class Protocol:
    """Of one queue."""

    def __init__(self, queue, answer):
        self.queue, self.answer = queue, answer
        self.harts = (queue.sender, queue.receiver)
        self.paces = [answer.paces.get((queue.number, hart)) for hart in self.harts]
        self.fields = [field[1:] for field in answer.fields if field[0] == queue.number]
        self.is_arriving = queue.number in answer.arriving

    def opening(self):
        start = self.queue.opens
        return Ghost((start, start), (start + self.capacity(), start), (0, 0), (), frozenset(), frozenset(), None)

    def capacity(self):
        return self.queue.indices.capacity if self.queue.indices else self.queue.size

    # ---- places

    def slot(self, byte):
        at = byte - self.queue.slots
        return at // self.queue.width if 0 <= at < self.queue.size * self.queue.width else None

    def position(self, own, slot):
        """The first from this one on that lies in the slot."""
        return own + (slot - own) % self.queue.size

    def is_tag_byte(self, byte):
        tag = self.queue.tag
        at = byte - tag.first if tag else -1
        return 0 <= at and at // tag.stride < self.queue.size and at % tag.stride < tag.width

    def is_beside_tag(self, byte):
        """Of the elements that have tags where these lie apart from the slots."""
        tag = self.queue.tag
        return bool(tag) and self.slot(byte) is None and 0 <= byte - tag.elements < self.queue.size * tag.stride

    def is_index_byte(self, byte):
        indices = self.queue.indices
        return bool(indices) and any(0 <= byte - place < indices.width for place in (indices.head, indices.tail))

    def slot_bytes(self, position):
        begin = self.queue.slots + position % self.queue.size * self.queue.width
        return (byte for byte in range(begin, begin + self.queue.width) if not self.is_tag_byte(byte))

    def owns(self, ghost, party, byte):
        """Whether the byte is of the slot of a position that the party owns, and of no tag."""
        slot = self.slot(byte)
        return slot is not None and not self.is_tag_byte(byte) and self.position(ghost.own[party], slot) < ghost.end[party]

    # ---- tags and indices

    def tells(self, party, position, value):
        """Whether a tag tells the party that the position is its own."""
        tag = self.queue.tag
        if tag.tells == "zero":
            return (value == 0) == (party == 0)
        if tag.tells == "number":
            return value == (position + party) % (1 << 32)
        in_round = 2 * (position // self.queue.size % 2) if len(tag.bits) == 4 else 0
        return value & tag.mask == tag.bits[in_round + party]

    def tag_slot(self, access):
        """The slot whose whole tag is accessed, or None."""
        tag = self.queue.tag
        at = access.address - tag.first
        slot, rest = divmod(at, tag.stride)
        return slot if 0 <= slot < self.queue.size and not rest and access.width == tag.width else None

    def is_whole(self, access, place):
        return (access.address, access.width) == (place, self.queue.indices.width)

    def look(self, ghost, party, access):
        """What the party knows after a load, and whether that tells it that it has to wait: how many positions it owns then."""
        if self.queue.indices:
            return self.look_at_index(ghost, party, access)
        slot = self.tag_slot(access)
        if slot is None:
            return ghost, None
        position = self.position(ghost.own[party], slot)
        if self.tells(party, position, access.loaded):
            ghost = ghost._replace(end=put(ghost.end, party, max(ghost.end[party], position + 1)))
        return ghost, ghost.end[party] - ghost.own[party] if position == ghost.own[party] else None

    def look_at_index(self, ghost, party, access):
        indices = self.queue.indices
        if not self.is_whole(access, (indices.tail, indices.head)[party]):
            return ghost, None
        ahead = 0 if party else indices.capacity
        known, actual = ghost.end[party] - ahead, ghost.own[1 - party]
        count = next((n for n in range(known, actual + 1) if indices.word(n) == access.loaded), None)
        if count is None:
            raise Breach(f"a load of the other's index finds {access.loaded}, the word of no count from {known} to {actual}")
        ghost = ghost._replace(end=put(ghost.end, party, count + ahead))
        return ghost, ghost.end[party] - ghost.own[party]

    def moves(self, ghost, party, access):
        """By how many positions a store moves the party on, or None."""
        own, end = ghost.own[party], ghost.end[party]
        if self.queue.indices:
            if not self.is_whole(access, (self.queue.indices.head, self.queue.indices.tail)[party]):
                return None
            words = (n for n in range(min(end - own + 1, self.queue.indices.modulus)) if self.queue.indices.word(own + n) == access.stored)
            return next(words, None)
        handed = own if party == 0 else own + self.queue.size
        is_next = self.tag_slot(access) == own % self.queue.size and own < end
        return 1 if is_next and self.tells(1 - party, handed, access.stored) else None

    # ---- an entry

    def store(self, ghost, party, access, state):
        """After a store: `party` is None of a hart that is neither."""
        if access.loaded == access.stored and self.queue.indices:
            return ghost, 0
        moved = None if party is None else self.moves(ghost, party, access)
        if moved is not None:
            return self.moved(ghost, party, moved, access, state), moved
        for byte in access.bytes():
            if self.is_index_byte(byte) or self.is_tag_byte(byte) or self.is_beside_tag(byte):
                raise Breach(f"a store of {access.stored} to byte {byte}, of an index or an element with a tag")
            if self.slot(byte) is not None and (party is None or not self.owns(ghost, party, byte)):
                raise Breach(f"a store to byte {byte}, of a slot that its hart doesn't own")
        if party == 0:
            return ghost._replace(fresh=ghost.fresh | {byte for byte in access.bytes() if self.slot(byte) is not None}), 0
        return ghost._replace(sent=tuple(each for each in ghost.sent if each[0] not in access.bytes())) if party == 1 else ghost, 0

    def moved(self, ghost, party, number, access, state):
        own = ghost.own[party]
        ghost = ghost._replace(own=put(ghost.own, party, own + number))
        wanted = (self.answer.written, self.answer.read)[party].get(self.queue.number, ())
        for position in range(own, own + number):
            begin = self.queue.slots + position % self.queue.size * self.queue.width
            its = frozenset(range(begin, begin + self.queue.width))
            done = (ghost.fresh | frozenset(access.bytes() if self.queue.tag else ()), ghost.seen)[party]
            for offset in chain(*wanted):
                byte = begin + offset
                if offset < self.queue.width and byte not in done and not (party and self.is_tag_byte(byte)):
                    raise Breach(f"position {position} moves on, and its byte {offset} wasn't {('written', 'read')[party]}")
            ghost = ghost._replace(fresh=ghost.fresh - its) if party == 0 else ghost._replace(
                seen=ghost.seen - its, sent=tuple(each for each in ghost.sent if each[0] not in its))
        if party == 0:
            harts, words = state
            sent = {byte: byte_read(harts[self.queue.sender][3], words, byte) for n in range(own, own + number) for byte in self.slot_bytes(n)}
            ghost = ghost._replace(sent=tuple(sorted({**dict(ghost.sent), **sent}.items())))
        return ghost

    def load(self, ghost, party, access):
        """After a load by a party: what it loads is owned, if that is shown, and is what was sent."""
        for at, byte in enumerate(access.bytes()):
            if self.slot(byte) is None or self.is_tag_byte(byte):
                continue
            if not self.owns(ghost, party, byte):
                if self.answer.reads_shown:
                    raise Breach(f"a load of byte {byte}, of a slot that its hart doesn't own")
                continue
            if party == 1:
                ghost, found = ghost._replace(seen=ghost.seen | {byte}), access.loaded >> 8 * at & 255
                if dict(ghost.sent).get(byte, found) != found:
                    raise Breach(f"a load finds {found} in byte {byte}, which was sent as {dict(ghost.sent)[byte]}")
        return ghost

    def entry(self, ghost, hart, pc, access, state):
        """The ghost after an entry of a hart, by how many positions it moved, and how many it owns if it is a look."""
        party = self.harts.index(hart) if hart in self.harts else None
        moved, owned = 0, None
        if access:
            self.see_listed(hart, pc, access)
            if access.loaded is not None and party is not None:
                ghost, owned = self.look(ghost, party, access)
                ghost = self.load(ghost, party, access)
                if owned is not None and party == 1:
                    self.see_fields(ghost, state)
            if access.stored is not None:
                ghost, moved = self.store(ghost, party, access, state)
        if party is not None:
            ghost = self.going_on(ghost, party, moved, owned)
        return ghost, moved, owned

    def see_listed(self, hart, pc, access):
        if any(self.slot(byte) is not None for byte in access.bytes()):
            for what, value in (("stored to", access.stored), ("loaded from", access.loaded)):
                if value is not None and (self.queue.number, what, hart, pc) not in self.answer.accesses:
                    raise Breach(f"a slot is {what} at pc {pc}, which isn't listed")

    def see_fields(self, ghost, state):
        harts, words = state
        for position in range(ghost.own[1], ghost.end[1]) if self.fields else ():
            begin = self.queue.slots + position % self.queue.size * self.queue.width
            for width, at, low, step, count in self.fields:
                value = sum(byte_read(harts[self.queue.receiver][3], words, begin + at + n) << 8 * n for n in range(width))
                if value not in (low + step * j for j in range(count + 1)):
                    raise Breach(f"the bytes from {at} on of position {position} are {value}")

    # ---- progress

    def going_on(self, ghost, party, moved, owned):
        pace = self.paces[party]
        if pace is None:
            return ghost
        waits = owned is not None and owned <= pace.waits
        idle = 0 if moved or waits else ghost.idle[party] + 1
        if idle >= pace.number:
            raise Breach(f"{pace.number} instructions in a row without one that moves on or finds that it has to wait")
        ghost = ghost._replace(idle=put(ghost.idle, party, idle))
        if not self.is_arriving or moved:
            return ghost._replace(landed=None)
        if ghost.landed is None:
            return ghost
        landed = put(ghost.landed, party, min(ghost.landed[party] + 1, pace.number))
        if all(n >= each.number for n, each in zip(landed, self.paces)):
            raise Breach("both have executed their instructions after both indices had landed, and nothing moved")
        return ghost._replace(landed=landed)

    def after(self, ghost, state):
        """After any event: whether both indices have landed."""
        if not self.is_arriving or ghost.landed is not None or None in self.paces:
            return ghost
        return ghost._replace(landed=(0, 0)) if self.has_landed(ghost, state) else ghost

    def has_landed(self, ghost, state):
        harts, words = state
        if self.queue.tag:
            return not any(self.is_tag_byte(byte) for hart in self.harts for place, width, _ in harts[hart][3] for byte in range(place, place + width))
        indices = self.queue.indices
        return all(sum(byte_read((), words, place + n) << 8 * n for n in range(indices.width)) == indices.word(count)
                   for place, count in zip((indices.head, indices.tail), ghost.own))


def put(values, at, value):
    return (*values[:at], value, *values[at + 1:])


class Judged:
    """All queues of an answer, and its harts."""

    def __init__(self, answer):
        self.answer = answer
        self.protocols = [Protocol(queue, answer) for queue in answer.queues]

    def opening(self, state):
        return tuple(each.after(each.opening(), state) for each in self.protocols), (0,) * len(state[0])

    def after(self, ghosts, event, outcome, before, state):
        """The ghosts after an event that made an entry."""
        queues, idle = ghosts
        if event[0] == "a":
            hart = event[1]
            access, pc = access_of(outcome), before[0][hart][0]
            self.see_hart(hart, outcome, access, state)
            found = [each.entry(ghost, hart, pc, access, state) for each, ghost in zip(self.protocols, queues)]
            queues, idle = tuple(each[0] for each in found), self.together(hart, idle, found)
        return tuple(each.after(ghost, state) for each, ghost in zip(self.protocols, queues)), idle

    def together(self, hart, idle, found):
        pace = self.answer.together.get(hart)
        if pace is None:
            return idle
        goes_on = any(hart in each.harts and each.queue.indices and (moved or owned is not None and owned <= pace.waits)
                      for each, (_, moved, owned) in zip(self.protocols, found))
        number = 0 if goes_on else idle[hart] + 1
        if number >= pace.number:
            raise Breach(f"hart {hart} executes {pace.number} instructions in a row without one that moves on or finds that it has to wait")
        return put(idle, hart, number)

    def see_hart(self, hart, outcome, access, state):
        if hart in self.answer.running and outcome.startswith("stopped"):
            raise Breach(f"hart {hart} is never stopped: {outcome}")
        if hart in self.answer.endless and state[0][hart][2] == ENDED:
            raise Breach(f"hart {hart} never ends, and does")
        writes = self.answer.writes.get(hart)
        if access and access.stored not in (None, access.loaded) and writes is not None \
                and not all(any(byte in each for each in writes) for byte in access.bytes()):
            raise Breach(f"hart {hart} writes bytes {access.address} to {access.address + access.width - 1}")
