"""Where queues may lie, by what a text's harts store and load in drawn runs. These are proposals: nothing is claimed of them."""

import re
from collections import defaultdict
from itertools import pairwise, permutations, product
from math import gcd
from typing import NamedTuple

from bring_parts import queue_runs

import machine

from . import queues, tags

# the runs are drawn in bursts, so that a queue of some slots fills
RUNS, LENGTH = 6, 4000
# how far from its flag a mailbox's record may lie
NEAR = 64


class Index(NamedTuple):
    """A place that counts: its bytes, and of the words that it had the common step, the least, the greatest, and whether one was below the one before."""

    place: int
    width: int
    step: int
    least: int
    most: int
    goes_back: bool


class Place:
    """What was seen of a place: the bytes of its accesses, which harts store and load it, and of each run the values stored, each with its hart."""

    def __init__(self):
        self.widths, self.storers, self.loaders, self.runs = set(), set(), set(), []

    def of_storer(self, hart):
        return [value for run in self.runs for storer, value in run if storer == hart]


class Seen:
    """What the harts of a test access in the drawn runs."""

    def __init__(self, test, names):
        # the addresses at which each instruction stores, by its hart and pc
        self.places, self.stores, self.opening, self.names = defaultdict(Place), defaultdict(set), test.words, names
        for run, entry, _ in queue_runs.drawn(test, RUNS, LENGTH):
            if entry.at is not None:
                self.look(run, entry)

    def look(self, run, entry):
        """Takes notice of an access."""
        place = self.places[entry.at]
        place.runs += [[] for _ in range(run + 1 - len(place.runs))]
        place.widths.add(entry.width)
        if entry.is_load():
            place.loaders.add(entry.hart)
        if entry.is_store():
            place.storers.add(entry.hart)
            place.runs[run].append((entry.hart, entry.value))
            self.stores[entry.hart, entry.pc].add(entry.at)

    def arrays(self, hart, other):
        """The arrays that a hart stores to and another one loads: where each begins, its elements, and the bytes of one."""
        found = []
        for (storer, _), addresses in sorted(self.stores.items(), key=lambda each: min(each[1])):
            if storer == hart and len(addresses) > 1:
                if found and min(addresses) <= max(found[-1][-1]):
                    found[-1].append(addresses)
                else:
                    found.append([addresses])
        # of a record the other hart may load a part alone
        for fields in (each for each in found if any(other in self.places[place].loaders for place in set().union(*each))):
            width = gcd(*(after - before for each in fields for before, after in pairwise(sorted(each))))
            begin = min(map(min, fields))
            yield begin, max((max([self.last_named(begin), *each]) - begin) // width + 1 for each in fields), width

    def last_named(self, begin):
        """The last byte of the words from a place on that are named as an array's elements."""
        array, last = re.sub(r"_[0-9]+(_.*)?$", "", self.names.get(begin, "")), begin
        while re.match(rf"{re.escape(array)}_[0-9]+(_|$)", self.names.get(last // 4 * 4 + 4, "")):
            last = last // 4 * 4 + 7
        return last

    def indices(self, hart, other):
        """The indices that a hart alone stores, by instructions that store nowhere else, and another one loads; or else that hart."""
        once = [each for each in self.stores.values() if len(each) == 1]
        alone = sorted(set().union(*once).difference(*(each for each in self.stores.values() if len(each) > 1)))
        own = [each for each in alone if self.places[each].storers == {hart} and len(self.places[each].widths) == 1]
        for address in [each for each in own if other in self.places[each].loaders] or [each for each in own if hart in self.places[each].loaders]:
            place = self.places[address]
            words = [[self.opened(address), *(value for _, value in run)] for run in place.runs]
            steps = [after - before for run in words for before, after in pairwise(run) if after != before]
            if steps:
                yield Index(address, max(place.widths), gcd(*steps), min(map(min, words)), max(map(max, words)), min(steps) < 0)

    def stored_by_both(self, hart, other, addresses):
        return [each for each in addresses if each in self.places and {hart, other} <= self.places[each].storers]

    def opened(self, address):
        return machine.number(machine.byte(self.opening.get(address & ~3, 0), (address + at) % 4) for at in range(max(self.places[address].widths)))


def counting(head, tail, begin, size, width):
    """The keys of a description for two indices and these slots, or None."""
    step, least, most, goes_back = gcd(head.step, tail.step), min(head.least, tail.least), max(head.most, tail.most), head.goes_back or tail.goes_back
    scale = step if goes_back or step == width else 1
    words = (most - least) // scale + 1
    wraps = goes_back and scale * words != 256 ** head.width
    if head.width != tail.width or wraps and words % size:
        return None
    keys = {"head": head.place, "tail": tail.place, "slots": begin, "size": size, "width": width, "bytes": head.width}
    keys |= {"index": "wrapping"} if wraps else {}
    keys |= {"modulus": words} if wraps and words != size else {}
    return keys | {"scale": scale, "base": least if wraps and least >= begin else 0}


def telling(seen, sender, receiver, both, begin, size, width):
    """The keys of a description of slots of which both harts store these places, or None."""
    offsets = {(each - begin) % width for each in both}
    first = next((run[0][0] for each in both for run in seen.places[each].runs if run), None)
    if len(offsets) != 1 or first != sender:
        return None
    offset, of_tag = offsets.pop(), max(seen.places[both[0]].widths)
    freed = {value for each in both for value in seen.places[each].of_storer(receiver)}
    keys = {"slots": begin, "size": size, "width": width}
    keys |= {"tag": f"{offset}+{of_tag}"} if (offset, of_tag) != (0, min(tags.WORD, width)) else {}
    return keys | ({} if freed == {0} else {"tells": tags.NUMBER})


def telling_beside(seen, sender, receiver, tags_at, arrays):
    """The keys of a description of slots that the sender alone stores, beside an array of as many tags, which both do; or None."""
    begin, number, stride = tags_at
    stored = seen.stored_by_both(sender, receiver, range(begin, begin + number * stride))
    found = [(slots, size, width) for slots, size, width in arrays
             if size <= number and max(stored) < begin + size * stride and not seen.stored_by_both(sender, receiver, range(slots, slots + size * width))]
    keys = telling(seen, sender, receiver, stored, begin, number, stride) if len(found) == 1 else None
    if not keys:
        return None
    (slots, size, width), (offset, count) = found[0], tags.tag_given(keys.get("tag", "0"), stride)
    keys |= {"slots": slots, "size": size, "width": width, "tags": begin, "tag": f"{offset}+{count}"}
    keys |= {"tag_stride": stride} if stride != offset + count else {}
    told = [{value for each in stored for value in seen.places[each].of_storer(hart)} for hart in (receiver, sender)]
    # of a tag that is one of two numbers all bits tell
    return keys | ({"tells": f"bit:{256 ** count - 1}:{min(told[0])}:{min(told[1])}"} if list(map(len, told)) == [1, 1] and told[0] != told[1] else {})


def mailbox(seen, sender, receiver, taken):
    """The keys of a description of one slot beside a word to which its sender stores what isn't 0, and its receiver 0; or None."""
    def is_turned(place):
        of_each = [set(place.of_storer(hart)) for hart in (sender, receiver)]
        return place.storers == {sender, receiver} and of_each[1] == {0} and of_each[0] and 0 not in of_each[0] and len(place.widths) == 1

    flags = [at for at, place in sorted(seen.places.items()) if at not in taken and not seen.opened(at) and is_turned(place)]
    for flag in flags:
        record = [at for at, place in seen.places.items()
                  if at not in taken and place.storers == {sender} and receiver in place.loaders and abs(at - flag) <= NEAR]
        if record:
            begin, end, width = min(record), max(at + max(seen.places[at].widths) for at in record), max(seen.places[flag].widths)
            keys = {"slots": begin, "size": 1, "width": end - begin}
            is_inside = begin <= flag < end
            return keys | ({"tag": f"{flag - begin}+{width}"} if is_inside else {"tags": flag, "tag": f"0+{width}"})
    return None


def bytes_of(keys):
    """The bytes that a description's queue has."""
    tags_at, stride = keys.get("tags"), keys.get("tag_stride") or sum(map(int, str(keys.get("tag", "0+4")).partition("+")[::2]))
    ranges = [(keys["slots"], keys["size"] * keys["width"]), *((keys[name], keys.get("bytes", 4)) for name in ("head", "tail") if name in keys)]
    return {at for begin, number in [*ranges, *[(tags_at, keys["size"] * stride)] * (tags_at is not None)] for at in range(begin, begin + number)}


def proposals(test, names):
    """For each queue that may be there the option that describes it, and its keys, whose places are numbers. A byte is one queue's. Of a word
    that has a name in the text it is in `names`, by its address."""
    seen, found = Seen(test, names), []
    for sender, receiver in permutations(range(len(test.codes)), 2):
        parties = {"sender": sender, "receiver": receiver}
        heads, tails = list(seen.indices(sender, receiver)), list(seen.indices(receiver, sender))
        arrays = list(seen.arrays(sender, receiver))
        for begin, size, width in arrays:
            if both := seen.stored_by_both(sender, receiver, range(begin, begin + size * width)):
                beside = telling_beside(seen, sender, receiver, (begin, size, width), arrays)
                if keys := beside or telling(seen, sender, receiver, both, begin, size, width):
                    found.append((-bool(beside), "--tagged", keys | parties))
                continue
            for head, tail in product(heads, tails):
                if keys := counting(head, tail, begin, size, width):
                    found.append((abs(head.place - begin) + abs(tail.place - begin), "--queue", keys | parties))
    taken, apart = set(), []
    for _, kind, keys in sorted(found, key=lambda each: each[0]):
        if not bytes_of(keys) & taken:
            taken |= bytes_of(keys)
            apart.append((kind, keys))
    # a flag beside a queue may be anything
    for sender, receiver in permutations(range(len(test.codes)), 2) if not apart else ():
        if keys := mailbox(seen, sender, receiver, taken):
            taken |= bytes_of(keys)
            apart.append(("--tagged", keys | {"sender": sender, "receiver": receiver}))
    for kind, keys in apart:
        yield kind, {key: value for key, value in keys.items() if value != queues.NUMBERS.get(key)}
