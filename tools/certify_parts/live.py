"""Which registers an instruction may still need, by its place in the code: for an address, a branch, or a value that is stored and matters."""

from typing import NamedTuple

from certificates import TAKEN, meaning

from .steps import AMO, AUIPC, BRANCH, IMMEDIATE, JAL, JALR, LOAD, LUI, REGISTER, STORE, SYSTEM

def needed_before(word, after, matters):
    """The registers that are needed before an instruction, by those after it and whether what it stores matters."""
    kind, to, x, y = word & 127, word >> 7 & 31, word >> 15 & 31, word >> 20 & 31
    read = set()
    if kind in (LOAD, JALR, BRANCH, STORE, AMO) or kind in (IMMEDIATE, REGISTER) and to in after:
        read.add(x)
    if kind == BRANCH or kind in (STORE, AMO) and matters or kind == REGISTER and to in after:
        read.add(y)
    if kind == SYSTEM:
        read |= {10, 11, 17}
    written = {to} if kind in (LUI, AUIPC, JAL, IMMEDIATE, LOAD, JALR, REGISTER, AMO) else set()
    return after - written | read - {0}


def followers(pc, word):
    """The places where the hart may go on, or None where the code doesn't say."""
    op, *parts = meaning(word) or (None,)
    if op == "jalr":
        return None
    return [pc + parts[1]] if op == "jal" else [pc + 4, pc + parts[2]] if op in TAKEN else [pc + 4]


def returns_of(code):
    """The places after calls."""
    return [4 * at + 4 for at, word in enumerate(code) if word & 127 in (JAL, JALR) and word >> 7 & 31]


def following_of(code):
    """For each place of a code those to which control may go from it. A return goes on after any call."""
    returns = returns_of(code)
    return [returns if goals is None else goals for goals in (followers(4 * at, word) for at, word in enumerate(code))]


def handed_before(word, after, is_handed):
    """The registers that a tag's store may hand over before an instruction, by those after it and whether what it stores is handed over."""
    kind, to, x, y = word & 127, word >> 7 & 31, word >> 15 & 31, word >> 20 & 31
    read = {x} if kind in (IMMEDIATE, REGISTER) and to in after else set()
    if kind in (STORE, AMO) and is_handed or kind == REGISTER and to in after:
        read.add(y)
    return (after if kind in (STORE, BRANCH) else after - {to}) | read - {0}


def address_parts(word, after, matters):
    """The registers that an address is made of before an instruction, by those after it."""
    kind, to, x, y = word & 127, word >> 7 & 31, word >> 15 & 31, word >> 20 & 31
    read = {x} if kind in (LOAD, JALR, STORE, AMO) or kind in (IMMEDIATE, REGISTER) and to in after else set()
    if kind in (STORE, AMO) and matters or kind == REGISTER and to in after:
        read.add(y)
    return (after if kind in (STORE, BRANCH) else after - {to}) | read - {0}


class Hands(NamedTuple):
    """What the stores of tags may hand over: at which pcs it is stored, to a tag or to an own word, and the places of those words; the places of own
    words of which an address is made; and for each place of the code the registers of which the one is so, and of which the other."""

    pcs: frozenset
    places: frozenset
    addresses: frozenset
    registers: list
    in_addresses: list


class Needed(NamedTuple):
    """What is needed of a code's registers: for each place those that are from there on, none at its end; by the place of each call those that
    are just after it, by what is called and where that returns to; at which places what is stored matters; and what is handed over, or None of a
    hart that sends by no tags of which more than one number is full."""

    registers: list
    after_calls: dict
    matters: frozenset
    hands: object = None

    def with_hands(self, code, pcs=frozenset(), places=frozenset(), addresses=frozenset()):
        """The same with what is handed over, and these besides."""
        if self.hands:
            pcs, places, addresses = pcs | self.hands.pcs, places | self.hands.places, addresses | self.hands.addresses
        following = following_of(code)
        return self._replace(hands=Hands(pcs, places, addresses, lived(code, pcs, following, handed_before),
                                         lived(code, frozenset(), following, address_parts)))


def needed_of(code, matters=frozenset(), hands=None):
    """What is needed of a code's registers, if what is stored matters at these places. A return goes on after any call."""
    returns = set(returns_of(code))
    goals = {4 * at: followers(4 * at, word) for at, word in enumerate(code)}
    registers = lived(code, matters, following_of(code))
    inside = lived(code, matters, [[*(each or ()), *([pc + 4] if pc + 4 in returns else ())] for pc, each in goals.items()])
    after = {pc: registers[pc // 4 + 1].union(*(inside[goal // 4] for goal in goals[pc] if 0 <= goal <= 4 * len(code)), {code[pc // 4] >> 7 & 31})
             for pc in goals if pc + 4 in returns and goals[pc]}
    return Needed(registers, after, matters, hands)


def lived(code, matters, following, before=needed_before):
    """For each place of the code, and its end, the registers that are needed from there on, if control goes from each to those that follow."""
    live, changed = [frozenset()] * (len(code) + 1), True
    while changed:
        changed = False
        for at in range(len(code) - 1, -1, -1):
            after = frozenset().union(*(live[goal // 4] for goal in following[at] if 0 <= goal <= 4 * len(code)))
            now = before(code[at], after, 4 * at in matters)
            if now != live[at]:
                live[at], changed = now, True
    return live


class Flow(NamedTuple):
    """Where control may go: the places where the outermost loops begin, those where several ways meet, those where other loops begin, each with
    the places in that loop, and each place's number, by which what comes later on all ways, loops aside, comes later."""

    outer: frozenset
    meets: frozenset
    inner: dict
    order: dict

    def turn(self, pc, goal):
        """What comes first of what is to be followed, by these numbers: what comes back to where an inner loop begins waits until
        all else has come round that loop too."""
        if pc in self.inner.get(goal, ()):
            return max(self.order[each] for each in self.inner[goal]), 1
        return self.order.get(goal, len(self.order)), 0


def flow_of(code):
    """The flow of a code."""
    following = [[goal for goal in goals if 0 <= goal < 4 * len(code)] for goals in following_of(code)]
    heads, met, left, path, todo = set(), {}, [], set(), [(None, iter((0,) if code else ()))]
    while todo:
        pc, goals = todo[-1]
        goal = next(goals, None)
        if goal is None:
            todo.pop()
            path.discard(pc)
            left.append(pc)
        elif goal in path:
            heads.add(goal)
        elif goal not in met:
            met[goal] = len(met)
            path.add(goal)
            todo.append((goal, iter(following[goal // 4])))
    # of the loops of which each leads to each, the one that is met first is outermost
    outer = frozenset(head for head in heads if not any(met[other] < met[head] and other in reached(following, head) for other in heads))
    ways = [goal for pc in met for goal in following[pc // 4]]
    return Flow(outer, frozenset(heads | {goal for goal in met if ways.count(goal) > 1}) - outer,
                {head: loop_of(following, met, head) for head in heads - outer}, {pc: at for at, pc in enumerate(reversed(left)) if pc is not None})


def loop_of(following, met, head):
    """The places of the loop that begins at one of those that were met: from them it is reached again without those that were met before."""
    leading = {pc: set() for pc in met}
    for pc in met:
        for goal in following[pc // 4]:
            leading[goal].add(pc)
    found, todo = {head}, [head]
    while todo:
        new = {pc for pc in leading[todo.pop()] if met[pc] > met[head]} - found
        found |= new
        todo += new
    return frozenset(found)


def reached(following, pc):
    """The places to which a place leads."""
    found, todo = set(), [pc]
    while todo:
        for goal in following[todo.pop() // 4]:
            if goal not in found:
                found.add(goal)
                todo.append(goal)
    return found
