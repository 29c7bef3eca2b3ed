"""A queue between two harts as two counts: where its parts lie, and which words of its indices stand for which counts."""

from math import gcd
from typing import NamedTuple

import certificates as reference

from .forms import SIZE


# up to so many turns of the slots are told apart as positions
FEW = 4


class Wrong(Exception):
    """What is wrong with the description of a queue."""


class Queue(NamedTuple):
    """An index of `index_width` bytes holds `base + scale * ((n + offset) mod modulus)` for the count n; position k lies in
    slot k mod `size`, and at most `capacity` positions are in use."""

    sender: int
    receiver: int
    head: int
    tail: int
    index_width: int
    slots: int
    size: int
    width: int
    capacity: int
    base: int
    scale: int
    offset: int
    modulus: int
    start: int

    has_tags = False

    def word(self, count):
        return self.base + self.scale * ((count + self.offset) % self.modulus)

    def is_linear(self):
        """Whether the word of a count is a linear form of it modulo 2^32."""
        return self.index_width == 4 and (self.scale * self.modulus) % SIZE == 0

    def is_cut(self):
        """Whether all numbers of an index's fewer than four bytes are words of it."""
        return self.index_width < 4 and self.scale * self.modulus == 256 ** self.index_width and self.base < self.scale

    def turns(self):
        """How many turns of the slots an index counts, if these are many and told apart by a number of their own; else 1."""
        return self.modulus // self.size if not self.is_linear() and self.modulus % self.size == 0 and self.modulus > FEW * self.size else 1

    def begins_soon_anew(self):
        """Whether an index counts a few rounds of the slots, by words that no sum has, and then begins anew."""
        return self.size < self.modulus <= FEW * self.size and not self.is_linear() and not self.is_cut()

    def period(self):
        """The positions of a count modulo this are told apart: they say which slot it has, and, with the turn, which word if words aren't linear."""
        return self.size if self.is_linear() or self.turns() > 1 else self.size * self.modulus // gcd(self.size, self.modulus)

    def has_known_words(self):
        """Whether a position, with its turn, says which word stands for its count."""
        return self.period() * self.turns() % self.modulus == 0

    def counting(self):
        """The queue whose positions say no more than slots, if its count is a running one of one or two bytes; else itself."""
        return Counting(*self) if self.is_cut() and self.modulus % self.size == 0 else self

    def may_be_parted(self, part):
        """Whether positions may be told by their remainder by this and the rest, and there are many of the rest."""
        return self.is_linear() and self.period() == self.size and not self.size % part and self.size // part > FEW

    def parted(self, part):
        found = Parted(*self)
        found.part = part
        return found

    def party(self, hart):
        """0 of the sender, 1 of the receiver, None of another hart."""
        return 0 if hart == self.sender else 1 if hart == self.receiver else None

    def own(self, party):
        return self.tail if party else self.head

    def other(self, party):
        return self.head if party else self.tail

    def first_owned(self, party):
        return 0 if party else self.capacity

    def known_less(self, party):
        """The other's count, as it is known, is the own count and all that is owned, less this."""
        return 0 if party else self.capacity

    def meets(self, place, width):
        """Whether an access of these bytes touches a byte of the queue."""
        return self.meets_slots(place, width) or any(
            place < index + self.index_width and index < place + width for index in (self.head, self.tail))

    def meets_slots(self, place, width):
        return place < self.slots + self.size * self.width and self.slots < place + width

    def parts(self):
        """What lies where: the name, the first byte and the number of bytes."""
        return ("head", self.head, self.index_width), ("tail", self.tail, self.index_width), ("slots", self.slots, self.size * self.width)

    def text(self):
        return " ".join(map(str, ("queue", *self)))

    def asked(self):
        """The queue as the second implementation has it."""
        return reference.Queue(*self[:-1])

    def opened(self, test):
        """The queue with the least count of which both indices open as the word; Wrong where there is none."""
        head, tail = (test.number(place, self.index_width) for place in (self.head, self.tail))
        index, rest = divmod(head - self.base, self.scale)
        if rest or not 0 <= index < self.modulus:
            pointer = f": of an index that is a pointer say index=wrapping,scale={self.width},base=PLACE, the place of the slots"
            raise Wrong(f"the head opens as {head}, and not as {self.word(0)}, which stands for 0 records"
                        + pointer * (self.slots <= head < self.slots + self.size * self.width))
        if tail != head:
            raise Wrong(f"the tail opens as {tail}, and not as {head}, as the head does: a queue opens empty")
        return self._replace(start=(index - self.offset) % self.modulus)


class Counting(Queue):
    """A queue of which the words aren't told apart."""

    def turns(self):
        return 1

    def period(self):
        return self.size


class Parted(Queue):
    """A queue with running counts of which a position is told by its remainder by `part`, which divides the slots, and, as a turn, the rest, if
    there is any."""

    part = None

    def may_be_parted(self, part):
        return False

    def turns(self):
        return self.size // self.part

    def period(self):
        return self.part


NUMBERS = {"size": None, "width": 4, "bytes": 4, "scale": 1, "base": 0, "offset": 0, "sender": 0, "receiver": 1}
KEYS = ("head", "tail", "slots", "index", "modulus", "capacity", *NUMBERS)


def described(places, given):
    """The queue of a description: its places, and what else is given."""
    missing = [name for name in ("head", "tail", "slots") if name not in places] + ["size"] * ("size" not in given)
    if missing:
        raise Wrong(f"a queue needs {missing[0]}=")
    numbers = numbers_given(given, KEYS, NUMBERS, ("index",), "a queue")
    if given.get("index", "counting") not in ("counting", "wrapping"):
        raise Wrong("index is counting or wrapping")
    size, width = numbers["size"], numbers["bytes"]
    for name in ("size", "width", "scale"):
        if numbers[name] < 1:
            raise Wrong(f"{name} is {numbers[name]}, and must be at least 1")
    if width not in (1, 2, 4):
        raise Wrong(f"an index has 1, 2 or 4 bytes, and not {width}")
    if given.get("index") == "wrapping":
        modulus = int(given.get("modulus", size))
    else:
        modulus = int(given.get("modulus", 256 ** width // numbers["scale"]))
    if modulus == size == 1:
        raise Wrong("with index=wrapping one slot stays free, so size is at least 2")
    if modulus < 2 or numbers["scale"] * modulus > 256 ** width:
        raise Wrong("the words of the index don't fit into its bytes, or there is one of them")
    capacity = int(given.get("capacity", size - 1 if modulus == size else size))
    if not 1 <= capacity <= size or capacity >= modulus:
        raise Wrong(f"of {size} slots {capacity} can't be in use at once, by an index of {modulus} words")
    numbers["offset"] %= modulus
    if numbers["sender"] == numbers["receiver"]:
        raise Wrong("the sender and the receiver are two harts")
    queue = Queue(numbers["sender"], numbers["receiver"], places["head"], places["tail"], width, places["slots"], size, numbers["width"],
                  capacity, numbers["base"], numbers["scale"], numbers["offset"], modulus, 0)
    for name in ("head", "tail"):
        if places[name] % width:
            raise Wrong(f"the {name} lies at {places[name]}, which is no multiple of its {width} bytes")
    check_apart([queue])
    return queue


def numbers_given(given, keys, numbers, words, what):
    """The numbers of what is given, and of what isn't but has one; Wrong where a key is none of these, or no number and none of these words."""
    for name, value in given.items():
        if name not in keys:
            raise Wrong(f"{what} has no {name}: it has {', '.join(keys)}")
        if name not in words and not value.removeprefix("-" if name == "offset" else "").isdigit():
            raise Wrong(f"{name} takes a number")
    return {name: int(given.get(name, value)) for name, value in numbers.items() if name in given or value is not None}


def given_of(text):
    """What a --queue or a --tagged gives, by its keys."""
    given = {}
    for part in text.split(","):
        name, equals, value = part.partition("=")
        if not equals or not value:
            raise Wrong(f"a queue is KEY=VALUE,.. and not {part!r}")
        if name in given:
            raise Wrong(f"{name} is given twice")
        given[name] = value
    return given


def check_apart(queues):
    """Wrong, unless no two parts of the queues have a byte in common."""
    parts = sorted((place, length, name, at) for at, queue in enumerate(queues) for name, place, length in queue.parts())
    for (first, length, name, one), (second, other_length, other, two) in zip(parts, parts[1:]):
        if first + length > second:
            of = [f" of queue {at}" if len(queues) > 1 else "" for at in (one, two)]
            raise Wrong(f"the {name}{of[0]} and the {other}{of[1]} overlap: bytes {first} to {first + length - 1} and {second} to {second + other_length - 1}")
