"""Ranks of the states of a certificate, forms over a state's variables that fall along each instruction which gets a party no further, and its text
with them (docs/progress.md has what they show).

States that lead round to one another by such instructions have, where there is one, a multiple of a variable that never grows round about and falls
on each way round; other states the least form above those to which they lead. Where that finds none they have numbers that fall wherever a way leads
out of the round, so that a rank stays equal only on it.
"""

import certificates as reference
import progress
import queues
from progress import raised_by

# ranks for all queues of a hart together are written of so many at most: with one more there are twice as many
MOST_QUEUES = 3
# the numbers of a form in a certificate
MOST_NUMBER = 1 << 32
FOR_RANKS = ("goes", "lacks", "rank")


class Way:
    """An arrow: by what its leaf raises variables, the ranges after the step, and where it leads with which forms."""

    def __init__(self, raises, after, arrow):
        self.raises, self.ranges, self.to, self.forms = raises, after.ranges, arrow.to, arrow.forms


def components(leads):
    """The strongly connected sets of nodes, those to which others lead first."""
    index, low, stack, on = {}, {}, [], set()
    for start in range(len(leads)):
        if start in index:
            continue
        work = [(start, iter(leads[start]))]
        index[start] = low[start] = len(index)
        stack.append(start)
        on.add(start)
        while work:
            node, rest = work[-1]
            for to in rest:
                if to not in index:
                    index[to] = low[to] = len(index)
                    stack.append(to)
                    on.add(to)
                    work.append((to, iter(leads[to])))
                    break
                if to in on:
                    low[node] = min(low[node], index[to])
            else:
                work.pop()
                if work:
                    low[work[-1][0]] = min(low[work[-1][0]], low[node])
                if low[node] == index[node]:
                    members = []
                    while not members or members[-1] != node:
                        members.append(stack.pop())
                        on.discard(members[-1])
                    yield members


def longest_paths(leads):
    """Of each node the longest path from it on, or None where one never ends."""
    before, left = [[] for _ in leads], [len(to) for to in leads]
    for node, to in enumerate(leads):
        for other in to:
            before[other].append(node)
    found, ready = [None] * len(leads), [node for node, number in enumerate(left) if not number]
    while ready:
        node = ready.pop()
        found[node] = max((found[to] + 1 for to in leads[node]), default=0)
        for other in before[node]:
            left[other] -= 1
            if not left[other]:
                ready.append(other)
    return None if None in found else found


class Ranking:
    """The ranks of a hart's states for instructions of a kind."""

    def __init__(self, kind):
        self.kind, self.states = kind, kind.states
        self.ways = [[Way(raises, after, arrow) for raises, following, arrows in ways for after, arrow in zip(following or (), arrows)]
                     for ways in kind.ways]
        self.leads = [sorted({way.to for way in ways}) for ways in self.ways]
        self.ranks = [progress.ZERO] * len(self.states)

    def found(self):
        for members in components(self.leads):
            is_round = len(members) > 1 or members[0] in self.leads[members[0]]
            some = self.round_about(sorted(members)) if is_round else self.above(members[0])
            for n, rank in (some or self.numbers(members)).items():
                self.ranks[n] = rank
        return self.ranks

    def above(self, n):
        """The least form of a state that is above the ranks of all to which it leads, or None."""
        wanted = []
        for way in self.ways[n]:
            f = reference.substituted(self.ranks[way.to], way.forms)
            step = reference.most(way.ranges, reference.Form(0, f.factors[:1]))
            if step is None:
                return None
            wanted.append((way.raises, f.constant + step + 1, [m if most != 0 else 0 for m, most in zip(f.factors[1:], way.ranges[1:])]))
        factors = [max((reference.factor_at(tuple(each), j) for _, _, each in wanted), default=0) for j in range(len(self.states[n].known.ranges))]
        constant = max((least - sum(factors[j] * by for j, by in raises) for raises, least, _ in wanted), default=0)
        return {n: reference.Form(max(constant, 0), shortened(factors))}

    def falling_variables(self, members):
        """Of each member a variable that is kept or falls along each way between members, and to which others a way leads that keeps it."""
        inner = {n: [way for way in self.ways[n] if way.to in members] for n in members}
        start = min(members)
        for j in range(len(self.states[start].known.ranges)):
            chosen, todo = {start: j}, [start]
            while todo and chosen:
                n = todo.pop()
                for way in inner[n]:
                    alone = reference.Form(0, (0,) * (chosen[n] + 1) + (1,))
                    same = [at for at, g in enumerate(way.forms) if reference.is_same(0, g, alone)]
                    if chosen.get(way.to) in same:
                        continue
                    if way.to in chosen or not same:
                        chosen = {}
                        break
                    # where several are the same the last is taken: new ones come first
                    chosen[way.to] = same[-1]
                    todo.append(way.to)
            if len(chosen) == len(members):
                yield chosen, {n: {way.to for way in inner[n] if not any(by and at == chosen[n] for at, by in way.raises)} for n in members}

    def outside(self, members):
        """Of each way out of these states what the rank there comes to at most, or None."""
        return [reference.most(way.ranges, reference.substituted(self.ranks[way.to], way.forms))
                for n in members for way in self.ways[n] if way.to not in members]

    def round_about(self, members):
        """A multiple of a variable that falls on each way round, and numbers between, or None."""
        outside, order = self.outside(set(members)), {n: at for at, n in enumerate(members)}
        if None in outside:
            return None
        base = max((most + 1 for most in outside), default=0)
        for chosen, kept in self.falling_variables(set(members)):
            inner = longest_paths([[order[to] for to in kept[n]] for n in members])
            if inner is not None:
                weight = max(inner) + 1
                return {n: reference.Form(base + inner[order[n]], (0,) * chosen[n] + (weight,)) for n in members}
        return None

    def numbers(self, members):
        """A number above the ranks to which ways out lead, as far as these have greatest ones."""
        most = max((each + 1 for each in self.outside(set(members)) if each is not None), default=0)
        return {n: reference.number(most) for n in members}


def shortened(factors):
    while factors and not factors[-1]:
        factors = factors[:-1]
    return tuple(factors)


def ranks_of(kind):
    """Ranks, and whether they fall and have greatest numbers. One that no text can have is 0."""
    ranks = [rank if max((rank.constant, *rank.factors)) <= MOST_NUMBER else progress.ZERO for rank in Ranking(kind).found()]
    return ranks, isinstance(progress.row_of(kind, ranks), progress.Within)


def least_owned(kind_of, owned, capacity):
    """The least of these numbers of positions, which the hart may own while it waits, with which ranks fall, and these; or those of the most positions
    that are fewer than the queue has."""
    last = max(capacity - 1, 0)
    tried = sorted({0} | {each for each in owned if each is not None and each < last})
    found = {len(tried): (last, *ranks_of(kind_of(last)))}
    low, high = 0, len(tried)
    while found[high][2] and low < high:
        middle = (low + high) // 2
        found[middle] = (tried[middle], *ranks_of(kind_of(tried[middle])))
        if found[middle][2]:
            high = middle
        else:
            low = middle + 1
    return found[high]


class HartRanks:
    """Of a hart what its ranks are for, as lines, and of each state its ranks."""

    def __init__(self, opening, c, h):
        self.c, self.hart, self.lines, self.columns = c, progress.Hart(opening, c, h), [], []
        mine, falls = progress.sides(c, h), True
        for i in mine:
            falls = self.of_queue(i) and falls
        for t, each in enumerate(c.tagged):
            if h in (each.queue.sender, each.queue.receiver):
                self.lines.append(f"goes {len(c.queues) + t}")
                self.columns.append(ranks_of(progress.untold(self.hart, len(c.queues) + t))[0])
        if not falls and 1 < len(mine) <= MOST_QUEUES:
            self.of_all(mine)

    def known(self):
        return (leaf.known for leaves in self.hart.leaves for leaf in leaves)

    def of_queue(self, i):
        """Adds the ranks for a queue with indices, and returns whether they fall."""
        owned = {progress.most_owned(i, k) for k in self.known()}
        least, idle, is_bounded = least_owned(lambda owned: progress.idle(self.hart, i, owned), owned, self.c.queues[i].queue.capacity)
        blind, sees = ranks_of(progress.blind(self.hart, i))
        self.lines.append(f"goes {i} {least}")
        self.columns += [idle, blind]
        return is_bounded and sees

    def of_all(self, mine):
        """Adds those for all its queues with indices together, if its idle ones fall."""
        owned = {progress.most_owned(i, k) for k in self.known() for i in mine}
        capacity = min(self.c.queues[i].queue.capacity for i in mine)
        least, idle, is_bounded = least_owned(lambda owned: progress.idle_of_all(self.hart, mine, owned), owned, capacity)
        if is_bounded:
            self.lines.append(f"goes - {least}")
            self.columns.append(idle)
            for lacks in progress.sets_of(mine):
                self.lines.append(" ".join(map(str, ("lacks", *lacks))))
                self.columns.append(ranks_of(progress.blind_lacking(self.hart, mine, least, lacks))[0])

    def rank_line(self, n):
        """The line of a state, or nothing where all its ranks are 0."""
        ranks = [column[n] for column in self.columns]
        return [] if all(rank == progress.ZERO for rank in ranks) else [" ".join(("rank", *map(queues.form_text, ranks)))]


def ranked(text, opening):
    """The text of a certificate with ranks: in place of its own, if it has some."""
    c, lines, hart, state, is_known = queues.read(text), [], -1, -1, False
    harts = [HartRanks(opening, c, h) if h < len(opening.harts) else None for h in range(len(c.harts))]
    for line in text.splitlines():
        name = (line.split() or [""])[0]
        if name in FOR_RANKS:
            continue
        if is_known and name in ("split", "leaf"):
            lines += harts[hart].rank_line(state) if harts[hart] else ()
            is_known = False
        lines.append(line)
        if name == "hart":
            hart, state = hart + 1, -1
        elif name == "open":
            lines += harts[hart].lines if harts[hart] else ()
        elif name == "state":
            state, is_known = state + 1, True
    return "\n".join(lines) + "\n"
