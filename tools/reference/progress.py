"""How soon a party of a queue goes on, as the ranks of a certificate show it, and where a hart may end. By the same names what
crates/queue_progress/specs and crates/hart_safety/specs/Ends.antt define; what an instruction does is computed once for all kinds.
"""

import itertools
from typing import NamedTuple

import certificates

EXIT_CALL = 93
ZERO = certificates.number(0)


class GoesOn(NamedTuple):
    """Of any pace + sight + 2 instructions in a row one moves the index, or is a load of the other's by which the party finds that it owns at
    most `owned` positions."""

    owned: int
    pace: int
    sight: int


class Within(NamedTuple):
    """Of a queue with tags: of any most + 1 instructions in a row one stores the tag, or is a load of it by which the party finds that it has to
    wait."""

    most: int


class NoPace(NamedTuple):
    state: int


class NoLook(NamedTuple):
    state: int


class Unranked(NamedTuple):
    """The certificate has no ranks for it."""


class Leaf(NamedTuple):
    """An instruction of a state: by which numbers splits raise a rank there, what is known, the instruction, the states that may follow, and where it
    leads."""

    raises: tuple
    known: object
    instruction: object
    following: list | None
    arrows: tuple


def is_further(s, t):
    own = certificates.lifted(s.own)
    return s.own.constant < t.own.constant and certificates.is_same(
        0, certificates.plus(own, certificates.minus(t.own, own)), t.own)


def share_at(k, i):
    return certificates.get_or(k.shares, i, certificates.NO_SHARE)


def looks(steps, i, k, instruction):
    access = steps.accessed(k, instruction)
    if access is None:
        return False
    _, bounds, width, loads, stores = access
    return loads and not stores and steps.is_look(bounds, width, i)


def most_owned(i, k):
    return certificates.most(k.ranges, share_at(k, i).owned)


def sides(c, h):
    """The queues with indices of which hart h is a party."""
    return [i for i, each in enumerate(c.queues) if h in (each.queue.sender, each.queue.receiver)]


def raised_leaves(raises, k, cases):
    """Each leaf of the cases, with the numbers by which variables are raised there, and its state."""
    if isinstance(cases, certificates.Leaf):
        yield raises, k, cases
        return
    j, v, low, high = cases
    yield from raised_leaves(raises, certificates.with_low(k, j, v), low)
    if certificates.may_exceed(v, certificates.get_or(k.ranges, j, 0)):
        yield from raised_leaves((*raises, (j, v + 1)), certificates.with_high(k, j, v), high)


def raised_by(rank, raises):
    for j, by in raises:
        rank = certificates.raised(j, by, rank)
    return rank


class Hart:
    """A hart's states, by the leaves of each."""

    def __init__(self, opening, c, h):
        self.c, self.h, self.code, self.part, self.steps = c, h, opening.harts[h][0], certificates.part_of(c, h), certificates.steps_of(c, h)
        self.leaves = [[self.leaf(*each) for each in raised_leaves((), listed.known, listed.cases)] for listed in self.part.states]

    def leaf(self, raises, k, found):
        following = certificates.next_states(self.c, self.h, self.code, k, found.handed)
        return Leaf(raises, k, certificates.instruction_at(self.code, k.pc), following, found.arrows)

    def moves(self, i, leaf):
        """Whether the count of queue i is further in each of the states that may follow."""
        share = share_at(leaf.known, i)
        return leaf.following is not None and all(is_further(share, share_at(after, i)) for after in leaf.following)

    def looks(self, i, leaf):
        return looks(self.steps, i, leaf.known, leaf.instruction)

    def learns(self, i, leaf):
        """Whether it is a load by which the hart may learn that it owns a position of queue i: it goes on along the first arrow then."""
        return (leaf.instruction is not None and leaf.instruction[0] in certificates.LOADS and leaf.following is not None and len(leaf.following) == 2
                and share_at(leaf.known, i).owned.constant == 0 and share_at(leaf.following[0], i).owned.constant == 1)


class Kind:
    """A kind of a hart's instructions: which leaves are of another one, and which go on along their first arrow alone."""

    def __init__(self, hart, is_other, is_cut=lambda leaf: False):
        self.states = hart.part.states
        self.ways = [[(leaf.raises, None if leaf.following is None else leaf.following[:1 if is_cut(leaf) else None], leaf.arrows)
                      for leaf in leaves if not is_other(leaf)] for leaves in hart.leaves]


def is_lower(ranges, f, g):
    """Whether f is surely less than g, where the variables lie in these ranges."""
    return certificates.fits_in(
        certificates.most(ranges, certificates.Form(f.constant + 1, certificates.differences(f.factors, g.factors))), g.constant)


def falls(kind, ranks, n):
    """Whether the rank of state n is higher than that of each state that may follow."""
    for raises, following, arrows in kind.ways[n]:
        here = certificates.lifted(raised_by(ranks[n], raises))
        if following is None or len(arrows) < len(following):
            return False
        if not all(is_lower(after.ranges, certificates.substituted(certificates.get_or(ranks, a.to, ZERO), a.forms), here)
                   for after, a in zip(following, arrows)):
            return False
    return True


def row_of(kind, ranks):
    """What ranks show of instructions of a kind."""
    most = [certificates.most(listed.known.ranges, rank) for listed, rank in zip(kind.states, ranks)]
    level = next((n for n, each in enumerate(most) if each is None or not falls(kind, ranks, n)), None)
    return Within(1 + max(most, default=0)) if level is None else NoPace(level)


# ---- ranks of a certificate

def width_of(goal):
    """How many ranks it has: one of a queue with indices has two."""
    return 2 if None not in goal else 1


def goal_of(part, wanted):
    """The place of the ranks for a queue, or for all queues together, and how many positions the hart may own while it waits; or None."""
    place = 0
    for goal in part.goals:
        if goal.queue == wanted:
            return place, goal.owned or 0
        place += width_of(goal)
    return None


def ranks_at(part, place):
    return [certificates.get_or(listed.ranks, place, ZERO) for listed in part.states]


def idle(hart, i, owned):
    return Kind(hart, lambda leaf: hart.moves(i, leaf) or certificates.fits_in(most_owned(i, leaf.known), owned))


def blind(hart, i):
    return Kind(hart, lambda leaf: hart.moves(i, leaf) or hart.looks(i, leaf))


def untold(hart, i):
    return Kind(hart, lambda leaf: hart.moves(i, leaf), lambda leaf: hart.learns(i, leaf))


def idle_of_all(hart, mine, owned):
    return Kind(hart, lambda leaf: any(hart.moves(i, leaf) or certificates.fits_in(most_owned(i, leaf.known), owned) for i in mine))


def blind_lacking(hart, mine, owned, lacks):
    def differs(i, leaf):
        if i in lacks:
            return share_at(leaf.known, i).owned.constant > owned or hart.looks(i, leaf)
        return certificates.fits_in(most_owned(i, leaf.known), owned)
    return Kind(hart, lambda leaf: any(hart.moves(i, leaf) or differs(i, leaf) for i in mine))


def progress_of(opening, c, h, i):
    """Of hart h, a party of queue i."""
    part = certificates.part_of(c, h)
    place, owned = goal_of(part, i) or (0, None)
    if owned is None or owned >= c.queues[i].queue.capacity:
        return Unranked()
    hart = Hart(opening, c, h)
    pace, sight = row_of(idle(hart, i, owned), ranks_at(part, place)), row_of(blind(hart, i), ranks_at(part, place + 1))
    if isinstance(pace, NoPace):
        return pace
    return NoLook(sight.state) if isinstance(sight, NoPace) else GoesOn(owned, pace.most, sight.most)


def told_progress_of(opening, c, h, t):
    """Of hart h, a party of queue t with tags."""
    part, i = certificates.part_of(c, h), len(c.queues) + t
    place, owned = goal_of(part, i) or (0, None)
    return Unranked() if owned is None else row_of(untold(Hart(opening, c, h), i), ranks_at(part, place))


def sets_of(queues):
    """The sets of some of these, each in ascending order."""
    return [lacks for number in range(1, len(queues) + 1) for lacks in itertools.combinations(queues, number)]


def hart_progress_of(opening, c, h):
    """Of hart h, for all queues of which it is a party together, or None: its sight is that of the worst of the sets of queues that it may lack."""
    part, mine = certificates.part_of(c, h), sides(c, h)
    place, owned = goal_of(part, None) or (0, None)
    if owned is None or any(owned >= c.queues[i].queue.capacity for i in mine):
        return None
    hart, first = Hart(opening, c, h), sum(map(width_of, part.goals))
    places = {tuple(lacks): first + at for at, lacks in reversed(list(enumerate(part.lacking)))}
    pace, sight = row_of(idle_of_all(hart, mine, owned), ranks_at(part, place)), [0]
    rows = [row_of(blind_lacking(hart, mine, owned, lacks), ranks_at(part, places.get(lacks, first + len(part.lacking)))) for lacks in sets_of(mine)]
    if any(isinstance(row, NoPace) for row in (pace, *rows)):
        return None
    # all that are listed count, asked about or not
    sight += [1 + max((certificates.most(listed.known.ranges, rank) or 0 for listed, rank in zip(part.states, ranks_at(part, first + at))), default=0)
              for at, _ in enumerate(part.lacking)]
    return GoesOn(owned, pace.most, max(sight))


def first_end(opening, c, h):
    """Hart h's first state where it may end: just past its code, or at what may be the exit call."""
    code, queues = opening.harts[h][0], certificates.steps_of(c, h).queues

    def may_end(k):
        if k.pc == 4 * len(code):
            return True
        instruction = certificates.instruction_at(code, k.pc)
        number = certificates.as_number(certificates.plain(queues, k.ranges, certificates.get_or(k.registers, 17, certificates.ANY)))
        return instruction is not None and instruction[0] == "ecall" and number in (None, EXIT_CALL)
    return next((n for n, listed in enumerate(certificates.part_of(c, h).states)
                 if any(may_end(k) for k, _ in certificates.leaves(listed.known, listed.cases))), None)
