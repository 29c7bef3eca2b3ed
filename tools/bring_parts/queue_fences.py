"""Which fences, and which `.aq` and `.rl` of AMOs, stand between the records of a queue and its indices, or tags, on each way that the states of its
certificate have. A hart with Ztso keeps that order without them, and one with RVWMO alone doesn't. Of RVWMO nothing is proved here."""

from collections import deque
from dataclasses import dataclass, field

import certificates
import tags
from words import TSO, decoded, text

# what an instruction may do to a queue: store to a record, load from one, move the own index or tag, load the other's
STORES, LOADS, MOVES, LOOKS = "stores a record", "loads a record", "moves", "looks"
# in the sets of a fence, and of an AMO
READ, WRITE = 2, 1
RELEASE, ACQUIRE = 1, 2
# of whom, what comes first and then, and what a fence must have before and after it
ORDERS = (("sender", STORES, MOVES, WRITE, WRITE), ("receiver", LOOKS, LOADS, READ, READ), ("receiver", LOADS, MOVES, READ, WRITE))
# and where a look at one tag tells of more positions: of whom it tells, who looks, that one's stores to tags, and this one's looks
AHEAD = (("sender", "receiver"), ("receiver", "sender"))
ALONE = "the order of the record and its index rests on Ztso alone"
# the verdict where a fence is asked for and isn't there
LACKING = "kept, but without the fences that are required"
# this many fences are named
SHOWN = 4


@dataclass
class Between:
    """What was found between two accesses: the fences, each with its pc, and the pcs of the first two accesses without one, or None."""
    fences: dict = field(default_factory=dict)
    lack: tuple = None

    def is_ordered(self):
        return self.lack is None


class Party:
    """What each leaf of a hart's states does to a queue, and to which states it leads."""

    def __init__(self, judge, number, hart):
        self.judge, self.number, self.hart = judge, number, hart
        self.queue, self.states = judge.opened[number].queue, certificates.part_of(judge.listed, hart).states
        self.tags = tags.tags_of(judge.listed, hart)
        self.steps, self.code, self.looks_ahead = self.tags.steps, judge.opening.harts[hart][0], False
        self.leaves = [[(self.does(known), [arrow.to for arrow in leaf.arrows if arrow.to < len(self.states)])
                        for known, leaf in certificates.leaves(listed.known, listed.cases)] for listed in self.states]

    def does(self, known):
        access = self.steps.accessed(known, certificates.instruction_at(self.code, known.pc))
        if not access:
            return set()
        place, bounds, width, loads, stores = access
        if self.judge.has_tags(self.number):
            tagged = self.number - self.judge.with_indices
            moves = stores and self.tags.moved_tag(known, place, width) == tagged
            position = self.tags.tag_at(known, place, width, tagged)
            looks = loads and position is not None
            self.looks_ahead |= looks and position > self.tags.tag_share(known, tagged).owned.constant
        else:
            moves, looks = stores and self.steps.is_own_index(bounds, width, self.number), loads and self.steps.is_look(bounds, width, self.number)
        is_slot = not certificates.is_apart(bounds, width, self.queue.slots, self.queue.size * self.queue.width) and not (moves or looks)
        return {kind for kind, holds in ((STORES, is_slot and stores), (LOADS, is_slot and loads), (MOVES, moves), (LOOKS, looks)) if holds}

    def decoded(self, state):
        """A state's pc, and its instruction with what the machine doesn't need of it."""
        pc = self.states[state].known.pc
        word = self.judge.word(self.hart, pc)
        return pc, *(word is not None and decoded(word) or (("",), None))

    def reached(self):
        """The states to which ways lead from where the hart opens."""
        seen = {certificates.part_of(self.judge.listed, self.hart).first} if self.states else set()
        todo = list(seen)
        while todo:
            new = {to for _, goes in self.leaves[todo.pop()] for to in goes} - seen
            seen |= new
            todo += new
        return seen

    def between(self, first, then, before, after):
        """What stands between each access of the first kind and the next one of the other kind, on each way."""
        found, todo, begun = Between(), deque(), set()

        def go_on(origin, goes):
            for to in goes:
                if to not in begun:
                    begun.add(to)
                    todo.append((origin, to))
        for state in sorted(self.reached()):
            pc, instruction, extra = self.decoded(state)
            for does, goes in self.leaves[state]:
                if first in does and instruction[0].startswith("amo") and extra & ACQUIRE:
                    found.fences[pc] = f".aq of {text(instruction, extra)}"
                elif first in does:
                    go_on(pc, goes)
        while todo:
            origin, state = todo.popleft()
            pc, instruction, extra = self.decoded(state)
            is_amo = instruction[0].startswith("amo")
            for does, goes in self.leaves[state]:
                if then in does and is_amo and extra & RELEASE:
                    found.fences[pc] = f".rl of {text(instruction, extra)}"
                elif then in does:
                    found.lack = found.lack or (origin, pc)
                elif is_amo and extra == ACQUIRE | RELEASE or orders(instruction, extra, before, after):
                    found.fences[pc] = text(instruction, extra)
                else:
                    go_on(origin, goes)
        return found


def orders(instruction, extra, before, after):
    """Whether an instruction is a fence that orders accesses of these kinds. A fence.tso orders all but a store before a load, which isn't asked."""
    return instruction[0] == "fence" and (extra == TSO or bool(extra[0] & before and extra[1] & after))


def moved(kind, index):
    """What an access of a kind is called, after another or before it."""
    return {MOVES: f"moves its {index}", LOOKS: f"looks at the other's {index}"}.get(kind, kind)


def named(fences):
    """`fence rw,w (pc 64)`, and the others."""
    words = [f"{fence} (pc {pc})" for pc, fence in sorted(fences.items())]
    return ", ".join(words[:SHOWN]) + ", .." * (len(words) > SHOWN)


@dataclass(frozen=True)
class Order:
    """Two accesses of a party of which the first is to come first, by what they do, and what stands between them."""
    hart: int
    first: str
    then: str
    between: Between

    def does(self, index):
        """What the hart does, in words."""
        return f"{moved(self.first, index)} and then {moved(self.then, index)}"


@dataclass(frozen=True)
class Fences:
    """What stands between the records of a queue and its indices, or tags: of each order that the states of its certificate have."""
    number: int
    index: str
    orders: list

    def lacking(self):
        return [order for order in self.orders if not order.between.is_ordered()]

    def are_all(self):
        return not self.lacking()

    def are_none(self):
        return len(self.lacking()) == len(self.orders)

    def by_hart(self):
        harts = dict.fromkeys(order.hart for order in self.orders)
        return {hart: {pc: fence for order in self.orders if order.hart == hart for pc, fence in order.between.fences.items()} for hart in harts}


def of_queue(judge, number):
    """What stands between the records of a queue and its indices."""
    queue = judge.opened[number].queue
    parties = {name: Party(judge, number, getattr(queue, name)) for name in ("sender", "receiver")}
    ahead = [order for teller, looker in AHEAD if parties[looker].looks_ahead
             for order in ((teller, MOVES, MOVES, WRITE, WRITE), (looker, LOOKS, LOOKS, READ, READ))]
    found = [Order(parties[whose].hart, first, then, parties[whose].between(first, then, before, after)) for whose, first, then, before, after in (*ORDERS, *ahead)]
    return Fences(number, "tag" if judge.has_tags(number) else "index", [each for each in found if each.between.fences or each.between.lack])


def of_answer(judge):
    """The same of each queue of a certificate."""
    return [of_queue(judge, number) for number in range(len(judge.opened))]


def line_of(judge, fences, order):
    """What is said of two accesses and what stands between."""
    front = f"queue {fences.number}: hart {order.hart} {order.does(fences.index)}"
    if order.between.is_ordered():
        return f"{front}, on each way with {named(order.between.fences)} between"
    before, after = (judge.place(order.hart, pc).removeprefix(f"hart {order.hart} at ") for pc in order.between.lack)
    return f"{front} with no fence, .aq or .rl between: {before}, and {after}"


def lines(judge, fences, is_required):
    """The lines of a queue."""
    front, kind = f"queue {fences.number}:", {"tag": "tags", "index": "indices"}[fences.index]
    if fences.are_all():
        each = "; ".join(f"hart {hart} {named(found)}" for hart, found in fences.by_hart().items())
        return [f"{front} between records and {kind} stand fences on each way: {each}"] * bool(fences.orders)
    if fences.are_none() and not is_required:
        return [f"{front} no fence, .aq or .rl stands between records and {kind}: {ALONE}"]
    return [*(line_of(judge, fences, order) for order in fences.orders), f"{front} {ALONE}" + ", where nothing stands between" * (not fences.are_none())]
