"""The search for abstract states of a hart that are closed under its instructions.

States that meet at one pc are joined if each of their values can be spelled alike, as a form of the counts. The search is trusted with
nothing: what it finds is written as a certificate, and a check of that decides.
"""

from enum import Enum
from heapq import heappop, heappush
from itertools import chain

from . import handed
from .done import tree_of
from .forms import SIZE, Bits, Form, Word, bounds, number, signed, variable_of
from .groups import Group, Groups
from .steps import BLOCK, Refused, leaves
from .values import Share

# so many states of one kind are told apart where they can't be joined without loss
APART = 20
# and so many along paths, where only outermost loops join: so many where these begin, and elsewhere, or so many for each slot: a loop over
# what is owned has two for each distance from the own count
APART_BETWEEN_PATHS, APART_BY_PATH, APART_BY_SLOT = 6, 500, 3
# of a count so many numbers are told apart between where the outermost loops begin: what goes round the slots shows itself by then
FEW_COUNTS = 8
# of what was joined, so many are kept, to see how a further one is spelled like them
KEPT = 12
# so many are joined by their own positions, before all positions are taken
EARLY = 4
# so many columns that couldn't be joined are looked at first, at each pc
FAILED = 3
# the time is looked at once in so much work
LOOKS = 64
# a case tree of so many leaves is large
LARGE = 16
# of so many joins what was found is remembered
REMEMBERED = 5_000
# to compare so many states is the work of one
COMPARED = 8
MOST_FACTOR = 1 << 20


class Mode(Enum):
    """What is told apart of states at one pc: nothing; at which position the own count stands; and how much is owned too; or nothing, but
    states are joined only where a loop begins, so that between what a split told is kept; or whether some position is known to be owned, while
    words of indices are settled as forms."""

    TOGETHER = 0
    BY_POSITION = 1
    BY_OWNED = 2
    BY_PATH = 3
    BY_ROOM = 4


class Order(Enum):
    """By which kinds of variables (forms.py) values are spelled first."""

    COUNTS_FIRST = "npA"
    POSITIONS_FIRST = "pnA"


# where positions aren't told apart
TOGETHER = (Mode.TOGETHER, Mode.BY_PATH, Mode.BY_ROOM)


def told_apart_of(queue, is_short):
    """Of the counts of a queue so many are told apart along paths."""
    return min(2 * queue.size, FEW_COUNTS) if is_short else 2 * queue.size


class Search:
    def __init__(self, program, way, copies, work, clock, flow, is_short):
        self.program, self.mode, self.order, self.left, self.clock = program, way.mode, way.order.value, work, clock
        # up to which count numbers of it are told apart between the outermost joins
        self.far = [queue.start + told_apart_of(queue, is_short) for queue in program.queues]
        self.groups = {}
        # the queues whose even rounds are told apart from odd ones
        self.phased = [which for which, queue, _ in program.tagged if queue.has_phases()]
        self.flow = flow
        # whether what was found from there on is left, since there are other states where an outermost loop begins
        self.begins_anew = False
        # what `spelled` found, and numbers for what was said of variables
        self.spelled_once, self.numbers, self.asked = {}, {}, (None, None)
        # the pcs of states with large case trees
        self.large = set()
        self.failed, self.apart = {}, APART_BETWEEN_PATHS if way.mode == Mode.BY_PATH else way.apart
        # of a search that has ended the states that are reached with their trees, and by which state each that follows is covered
        self.trees, self.covered = {}, {}
        # at which pcs an earlier search saw what the other's index held in which register or word; and where this one does
        self.copies, self.copied, self.seen = copies, {pc for pc, _ in copies}, set()

    def spend(self, work):
        """Counts work, and ends the search where that was all, or the time is over."""
        self.left -= work
        if self.left < 0 or self.left // LOOKS != (self.left + work) // LOOKS and self.clock.is_over():
            raise Refused(None, "no end was found")

    def states(self):
        return [group.state for groups in self.groups.values() for group in groups]

    def covering(self, state):
        """The state that was found last of those that cover this one, of a search that has ended."""
        return self.covering_group(state).state

    def covering_group(self, state):
        _, found = self.covered.get(id(state), (None, None))
        if found is None:
            found = next((group for group in reversed(self.groups[self.key(state)].near(state)) if self.covers(group.state, state)), None)
            if found is None:
                raise AssertionError(f"no state covers {state}")
            # the state is kept with it, so that no other one has its id
            self.covered[id(state)] = state, found
        return found

    def reached(self):
        """The states that a hart may come to from its first one, of a search that has ended, each with its case tree."""
        if not self.trees:
            todo = [self.covering_group(self.program.start)]
            self.trees = {todo[0].state: None}
            while todo:
                group = todo.pop()
                tree = self.trees[group.state] = group.tree or tree_of(self.program, group.state)
                for _, _, after in leaves(tree):
                    for found in [self.covering_group(following.state) for following in after]:
                        if found.state not in self.trees:
                            self.trees[found.state] = None
                            todo.append(found)
        return self.trees

    def key(self, state):
        """What is told apart of states."""
        shares = [share for share in state.shares if share]
        positions = tuple((share.first, share.last) for share in shares) if self.mode in (Mode.BY_POSITION, Mode.BY_OWNED) else ()
        owned = tuple((share.low, share.high) if self.mode == Mode.BY_OWNED else (share.low > 0, share.first // BLOCK) for share in shares)
        owned = owned if self.mode in (Mode.BY_OWNED, Mode.BY_ROOM) else ()
        return state.pc, positions, owned, tuple(state.shares[which].begin for which in self.phased), state.others, state.is_apart, state.done

    # ---- values

    def is_value(self, value, state, wanted):
        """Whether a value of a state is one that is wanted, whatever the state."""
        if wanted is None or value == wanted:
            return True
        if isinstance(value, Bits) and isinstance(wanted, Bits):
            return value.mask & wanted.mask == wanted.mask and value.bits & wanted.mask == wanted.bits
        if value is None or isinstance(value, Form) and isinstance(wanted, Form) and value.terms == wanted.terms:
            return False
        return self.is_known_value(value, self.program.known(value, state), state, wanted)

    def is_known_value(self, value, known, state, wanted):
        """The same of a value of which the number is known, or None."""
        if value == wanted:
            return True
        if known is not None:
            return known == self.program.known(wanted, state)
        if isinstance(value, Word) or isinstance(wanted, Word) or value.terms == wanted.terms:
            return False
        found = bounds(value.minus(wanted), self.program.ranges(state))
        return found is not None and found[0] == found[1] and found[0] % SIZE == 0

    def covers(self, old, state):
        """Whether each state that `state` stands for is one that `old` does, of two with one key."""
        for share, other, queue in zip(old.shares, state.shares, self.program.queues):
            if share and not (share.low <= other.low and (other.high <= share.high or queue.has_tags) and share.first <= other.first
                              and other.last <= share.last and share.begin <= other.begin and other.end <= share.end and share.count in (None, other.count)):
                return False
        if old.handed or state.handed:
            return handed.covers(self, old, state)
        return self.are_values(state.registers, state, old.registers) and self.are_values(state.words, state, old.words)

    def are_values(self, values, state, wanted):
        return values == wanted or all(new == each or self.is_value(new, state, each) for new, each in zip(values, wanted))

    def spellings(self, values, states, known, width):
        """Values of so many bytes that all of these may be: each as it stands; what the other's index holds; and forms of counts through two of the
        numbers that are known of them. Of fewer than four bytes none is a running count, which may be more, and some may be words of one."""
        yield from list(dict.fromkeys(values))[:4]
        yield from self.program.looks
        if width < 4:
            yield from self.words_of(states, known, width)
        known = [(value, self.program.ranges(state)) for value, state in zip(known, states) if value is not None]
        for at in {1, len(known) // 2, len(known) - 1} - {0, -1}:
            if at < len(known):
                yield from (each for each in self.through(known[0], known[at]) if width == 4 or all(kind != "n" for kind, _ in each.variables()))

    def words_of(self, states, known, width):
        """Words of indices of so many bytes at most, by the first number that is known: such as are that far from the own count, or from the other's."""
        first = next(((value, state) for value, state in zip(known, states) if value is not None), None)
        for which, queue in enumerate(self.program.queues) if first else ():
            share = first[1].shares[which]
            if not share or share.count is None or queue.has_tags or queue.index_width > width or (first[0] - queue.base) % queue.scale:
                continue
            further = ((first[0] - queue.base) // queue.scale - queue.offset - share.count + queue.modulus // 2) % queue.modulus - queue.modulus // 2
            yield Word(which, variable_of("n", which, 1, further))
            if share.low == share.high:
                yield Word(which, variable_of("n", which, 1, further - share.low).plus(variable_of("A", which)))

    def through(self, *two):
        """Forms of the counts that both know, through both numbers."""
        (a, first_ranges), (b, second_ranges) = two
        # the newest first, which leads to fewer states more often
        both = [variable for variable in reversed(first_ranges) if variable in second_ranges and variable[0] != "z"]
        numbers = {variable: (first_ranges[variable][0], second_ranges[variable][0]) for variable in both
                   if first_ranges[variable][0] == first_ranges[variable][1] and second_ranges[variable][0] == second_ranges[variable][1]}
        queues = self.program.queues
        for which in sorted({which for kind, which in numbers if kind == "t" and queues[which].turns() > 1 and queues[which].has_known_words()}):
            position = self.program.position(which).times(queues[which].scale)
            x, y = (value - bounds(position, ranges)[0] for value, ranges in two)
            if (x - y) % SIZE == 0:
                yield position.plus(number(x))
        ordered = sorted(((variable, two) for variable, two in numbers.items() if variable[0] != "t" and two[0] != two[1]),
                         key=lambda row: self.order.find(row[0][0]))
        shifts = [(None, 0)] + [(variable, sign * self.program.queues[variable[1]].scale) for variable in numbers if variable[0] == "A" for sign in (1, -1)]
        for owned, m in shifts:
            x, y = (value - m * numbers[owned][at] if owned else value for at, value in enumerate((a, b)))
            begin = variable_of(*owned, m) if owned else number(0)
            if owned and (x - y) % SIZE == 0:
                yield begin.plus(number(x))
            for variable, (first, second) in ordered:
                if variable != owned and signed(y - x) % (second - first) == 0:
                    factor = signed(y - x) // (second - first)
                    if 0 < factor < MOST_FACTOR:
                        yield begin.plus(variable_of(*variable, factor, x - factor * first))

    @staticmethod
    def contradict(known, states):
        """Whether two of these numbers differ, of states with the same counts: then no form is both."""
        met = {}
        for value, state in zip(known, states):
            if value is not None and met.setdefault(state.shares, value) != value:
                return True
        return False

    def spelled(self, where, values, states):
        """A value that all of these are, or None where there is none."""
        if None in values:
            return None
        is_copy = (states[0].pc, where) in self.copies
        if not is_copy and values.count(values[0]) == len(values):
            return values[0]
        # most values are the same at one pc and the next
        width = 4 if where < 32 else self.program.kept[where - 32][1]
        asked = values, self.number_of(states), is_copy, width
        if asked not in self.spelled_once:
            self.spelled_once[asked] = self.spelled_anew(values, states, is_copy, width)
        return self.spelled_once[asked]

    def number_of(self, states):
        """A number for what these states say of their variables."""
        if self.asked[0] is not states:
            if len(self.numbers) == REMEMBERED or len(self.spelled_once) > 8 * REMEMBERED:
                self.numbers.clear()
                self.spelled_once.clear()
            told = tuple([(state.shares, state.others, state.handed) for state in states])
            self.asked = states, self.numbers.setdefault(told, len(self.numbers))
        return self.asked[1]

    def spelled_anew(self, values, states, is_copy, width):
        known = list(map(self.program.known, values, states))
        if self.contradict(known, states):
            return None
        rows = list(zip(values, known, states))
        for each in chain(self.program.looks if is_copy else (), self.spellings(values, states, known, width)):
            for row in rows:
                if not self.is_known_value(*row, each):
                    break
            else:
                return each
        return None

    # ---- joins

    def are_apart(self, one, other):
        """Whether a value of one state is a number more in another one with the same counts: then a join loses it."""
        if self.program.needed.hands or one.shares != other.shares or one.others != other.others:
            return False
        return any(a is not b and a.__class__ is b.__class__ is Form and a.terms == b.terms and a.constant != b.constant
                   for a, b in zip(one.registers + one.words, other.registers + other.words))

    def is_early(self, state):
        """Whether its counts are among the first, which are told apart to see how values go with them."""
        return all(share is None or share.count is not None and share.count - queue.start <= (2 if self.mode in TOGETHER else 2 * queue.size)
                   for share, queue in zip(state.shares, self.program.queues))

    def joined(self, states, is_whole=False):
        """The states as one, and how many values are lost by it; None and 1 as soon as one is, if nothing may be."""
        values, lost, meeting, words = [], 0, self.meeting(states), states[0].words
        # of many own words mostly all are the same
        is_same = not meeting and states[0].pc not in self.copied and all(state.words == words for state in states)
        failed = self.failed.setdefault(states[0].pc, [])
        if is_whole and any(self.is_lost(where, states) for where in failed if where < 32 or not is_same):
            return None, 1
        for where, column in enumerate(zip(*[state.registers if is_same else state.registers + state.words for state in states])):
            values.append(self.spelled_among(meeting, where, column, states))
            if values[-1] is None and None not in column:
                lost += 1
                if is_whole:
                    # where one is lost another one often is too: it is asked for first
                    failed.insert(0, where)
                    del failed[FAILED:]
                    return None, 1
        shares = []
        for which, each in enumerate(zip(*(state.shares for state in states))):
            if each[0] and self.program.queues[which].has_tags and any(share.low != each[0].low for share in each):
                lost += 1
                if is_whole:
                    return None, 1
            shares.append(self.joined_share(which, each) if each[0] else None)
        found = states[0]._replace(registers=tuple(values[:32]), words=words if is_same else tuple(values[32:]), shares=tuple(shares))
        return meeting.settled(found) if meeting else found, lost

    def meeting(self, states):
        """What joins words that may be handed over, or None where there are none."""
        return handed.Meeting(self, states) if self.program.needed.hands or any(state.handed for state in states) else None

    def spelled_among(self, meeting, where, column, states):
        return meeting.spelled(where, column) if meeting and meeting.is_asked(where, column) else self.spelled(where, column, states)

    def is_lost(self, where, states):
        """Whether a join loses the value of a register, or of a word after them."""
        column = tuple([state.registers[where] if where < 32 else state.words[where - 32] for state in states])
        return None not in column and self.spelled_among(self.meeting(states), where, column, states) is None

    def joined_share(self, which, shares):
        queue = self.program.queues[which]
        count = shares[0].count if all(share.count == shares[0].count for share in shares) else None
        low, high = min(share.low for share in shares), max(share.high for share in shares)
        first, last = min(share.first for share in shares), max(share.last for share in shares)
        if queue.has_tags:
            high = low
        elif len({(share.low, share.high) for share in shares}) > EARLY:
            low, high = min(low, 1), queue.capacity
        begin, end = min(share.begin for share in shares), max(share.end for share in shares)
        if self.mode in TOGETHER and len({(share.first, share.last) for share in shares}) > EARLY:
            first, last = self.widened(("p", which), first, last, queue.period())
        if len({(share.begin, share.end) for share in shares}) > 1:
            begin, end = self.widened(("t", which), begin, end, queue.turns())
        return Share(count, first, last, low, high, begin, end)

    def with_ranges(self, state, before):
        """A state with the ranges of those that were joined before too: where a range ended at a further edge then, a join of what was met has less."""
        shares = list(state.shares)
        for which, queue in enumerate(self.program.queues):
            for share in [each.shares[which] for each in before if each.shares[which] and not queue.has_tags]:
                one = shares[which]
                shares[which] = Share(one.count, min(one.first, share.first), max(one.last, share.last), min(one.low, share.low), max(one.high, share.high),
                                      min(one.begin, share.begin), max(one.end, share.end))
        return state if tuple(shares) == state.shares else state._replace(shares=tuple(shares))

    def widened(self, variable, first, last, count):
        """A range up to where its variable was parted, or of all its numbers, from 0 to less than a count."""
        edges = self.program.edges.get(variable, ())
        return max([0, *(at + 1 for at in edges if at < first)]), min([count - 1, *(at for at in edges if at >= last)])

    def as_one(self, one, other):
        """Two states as one, if only one range tells them apart and both make one range; or None. Where several ways meet, values may be spelled
        anew or lost. Elsewhere only forms are joined, which are parted again where need be: after an access the parts of the position by where
        its slots begin anew, say. A split that told where an index's word wraps is kept."""
        shares = one.shares
        if one.handed != other.handed:
            return None
        if shares != other.shares:
            differ = [which for which, (a, b) in enumerate(zip(shares, other.shares)) if a != b]
            share = self.one_range(shares[differ[0]], other.shares[differ[0]], self.program.queues[differ[0]]) if len(differ) == 1 else None
            if share is None:
                return None
            shares = (*shares[:differ[0]], share, *shares[differ[0] + 1:])
        values, ways_meet = list(one.registers + one.words), one.pc in self.flow.meets
        for at, (a, b) in enumerate(zip(values, other.registers + other.words)):
            if not ways_meet and (a != b or isinstance(a, Word)):
                return None
            if a != b and not self.is_value(b, other, a):
                if not self.is_value(a, one, b):
                    return None
                values[at] = b
        return one._replace(registers=tuple(values[:32]), words=tuple(values[32:]), shares=shares)

    @staticmethod
    def one_range(a, b, queue):
        """Two shares as one, if they differ in one range and both make one range; or None."""
        first, second = ((share[1:3], share[3:5], share[5:7]) for share in (a, b))
        differ = [(x, y) for x, y in zip(first, second) if x != y]
        if a.count != b.count or len(differ) > 1 or queue.has_tags and a.low != b.low:
            return None
        if differ and max(differ[0][0][0], differ[0][1][0]) > min(differ[0][0][1], differ[0][1][1]) + 1:
            return None
        return Share(a.count, min(a.first, b.first), max(a.last, b.last), min(a.low, b.low), max(a.high, b.high), min(a.begin, b.begin), max(a.end, b.end))

    def is_within(self, state):
        """Whether a state is of a place between the outermost joins, where no count goes on in a loop by itself."""
        return state.pc not in self.flow.outer and all(share is None or share.count is None or share.count <= far
                                                       for share, far in zip(state.shares, self.far))

    def told_apart(self, state, groups):
        """Takes in a state that is joined with others only if nothing else comes in by it."""
        ways_meet, left = state.pc in self.flow.meets, groups.near(state)[::-1]
        while left:
            group = left.pop()
            # mostly they differ in a value
            is_same = (group.state.registers, group.state.words) == (state.registers, state.words)
            one = self.as_one(group.state, state) if ways_meet or is_same else None
            if one:
                groups.remove(group)
                state, left = one, groups.near(one)[::-1]
        groups.add(Group([state], state))
        if len(groups) > max([APART_BY_PATH, *(APART_BY_SLOT * queue.size for queue in self.program.queues)]):
            raise Refused(None, "no end was found")
        return state

    def take(self, state):
        """Takes in a state that may be met; returns it, or what it was joined to, if that is new."""
        groups = self.groups.setdefault(self.key(state), Groups())
        near = groups.near(state)
        self.spend(len(near) // COMPARED)
        if any(self.covers(group.state, state) for group in reversed(near)):
            return None
        for where, value in enumerate(state.registers + state.words):
            if value is not None and value.terms and any(variable[0] == "A" for variable, _ in value.terms):
                self.seen.add((state.pc, where))
        self.spend(1)
        if self.mode == Mode.BY_PATH and self.is_within(state):
            return self.told_apart(state, groups)
        if len(groups) < self.apart and self.is_early(state):
            groups.add(Group([state], state))
            return state
        # the groups that it can be joined with and nothing is lost; if there are many others, the one with which least is lost
        met, whole, least, before = [state], None, None, []
        self.spend(len(groups))
        for group in groups:
            if self.are_apart(state, group.state):
                continue
            found, lost = self.joined(met + group.met, True)
            if lost == 0:
                met, whole = met + group.met, found
                before.append(group.state)
                groups.remove(group)
        if whole is None and len(groups) >= self.apart:
            for group in groups:
                found, lost = self.joined(met + group.met)
                if least is None or lost < least[0]:
                    least = lost, group, found
            groups.remove(least[1])
            met, whole = met + least[1].met, least[2]
            before.append(least[1].state)
        self.begins_anew |= self.mode == Mode.BY_PATH and whole is not None and state.pc in self.flow.outer
        whole = self.with_ranges(whole or state, before)
        for group in groups:
            if self.covers(whole, group.state):
                groups.remove(group)
        # what is joined counts too, so that a later join says no more
        groups.add(Group([*met[:KEPT // 2], *met[KEPT // 2:][-KEPT // 2:], *[whole] * (len(met) > KEPT)], whole))
        return whole

    def follow(self, state):
        """What follows a state that was taken in, unless it was joined with others since."""
        groups = self.groups.get(self.key(state))
        group = groups and groups.of(state)
        if group:
            tree = tree_of(self.program, state)
            for number, (_, _, after) in enumerate(leaves(tree)):
                self.spend(1)
                yield from (following.state for following in after)
            group.tree = tree
            if number >= LARGE:
                self.large.add(state.pc)

    def run(self):
        # states with large case trees wait until nothing else is left, so that these are made seldom
        todo, later = [self.take(self.program.start)], {}
        while todo or later:
            if not todo:
                todo = [later.popitem()[1]]
            state = todo.pop()
            for following in self.follow(state):
                new = self.take(following)
                if new is not None:
                    if new.pc in self.large:
                        later[id(new)] = new
                    else:
                        todo.append(new)

    def run_by_path(self):
        """As `run`, where what comes first is followed first, so that later on little comes twice."""
        todo, number, pc = [], 0, None
        new = [self.take(self.program.start)]
        while new or todo:
            for state in new:
                number += 1
                heappush(todo, (self.flow.turn(pc, state.pc), number, state))
            state = heappop(todo)[2]
            pc = state.pc
            new = [taken for taken in map(self.take, self.follow(state)) if taken is not None]
            if self.begins_anew:
                todo, new, pc = [], self.only_outer(), None

    def only_outer(self):
        """Leaves all states but those where an outermost loop begins, and what comes before; returns what to follow."""
        self.begins_anew = False
        self.groups = {key: groups for key, groups in self.groups.items() if key[0] in self.flow.outer}
        return [self.take(self.program.start) or self.program.start, *self.states()]
