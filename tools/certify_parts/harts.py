"""The search over all harts of a test: which words each alone writes depends on what the others store."""

from functools import partial
from itertools import chain
from math import gcd
from typing import NamedTuple

from . import tags
from .done import is_shown, wanted_of
from .forms import SIZE
from .handed import Hands
from .live import flow_of, needed_of
from .progress import goes_on
from .search import APART, Mode, Order, Search, told_apart_of
from .steps import LOAD, Matters, Program, Refused, leaves
from .values import Parts


class Way(NamedTuple):
    """How a hart's states are searched: what is told apart, for how much work, first and, if no way succeeds, again (see WORK); whether sums of an
    index's words are taken by their remainders; whether bytes and halves that are loaded count as numbers of a range; by what values are spelled
    first; whether it counts that a sender opens with all slots of a queue with tags; how many states that can't be joined without loss are told
    apart where all are joined; and whether states of which more and less is done of records (done.py) are told apart."""

    mode: Mode
    work: tuple
    loosens: bool = True
    with_bytes: bool = False
    order: Order = Order.COUNTS_FIRST
    opens_full: bool = False
    apart: int = APART
    by_done: bool = False


FEW_APART = 6
# of a queue with tags a party mostly counts slots, which the positions spell: it goes that way first, and so far
BY_SLOTS, WORK_BY_SLOTS = Way(Mode.TOGETHER, (0.5, 5), order=Order.POSITIONS_FIRST), (4, 15)
# the ways that tell soon whether a hart may be covered
SOON = BY_SLOTS, Way(Mode.BY_PATH, (12, 45)), Way(Mode.BY_POSITION, (1.5, 30), loosens=False)
# ways that take little and join less, so that their states sooner show that the hart goes on
TELLING = Way(Mode.TOGETHER, (2, 5), loosens=False), Way(Mode.BY_ROOM, (8, 20), loosens=False)
# ways that take little where states are told apart by what is done of records
DOING = TELLING[0], SOON[-1]
# one way after the other is gone until one succeeds. What an earlier search saw of copies of the other's index is taken up, so the first is gone twice,
# and soon is over the first time, where a number that isn't known grows in a loop
WAYS = (Way(Mode.TOGETHER, (1, 5), apart=FEW_APART), Way(Mode.TOGETHER, (2, 5)), *TELLING, *SOON[1:], Way(Mode.BY_PATH, (9, 45), loosens=False), BY_SLOTS,
        Way(Mode.TOGETHER, (0.5, 5), with_bytes=True), Way(Mode.BY_PATH, (3, 30), with_bytes=True),
        Way(Mode.BY_PATH, (3, 30), loosens=False, with_bytes=True), Way(Mode.BY_OWNED, (3, 45), loosens=False),
        Way(Mode.TOGETHER, (2, 5), order=Order.POSITIONS_FIRST, opens_full=True), Way(Mode.BY_POSITION, (6, 30), loosens=False, opens_full=True),
        Way(Mode.BY_PATH, (6, 15), opens_full=True))
# a way's work is counted in so many states, instructions and comparisons, not in seconds, so that a search finds the same on each machine; it
# takes a third of a second to one and a half
WORK = 10_000
TURNS = 2
MOST_ROUNDS = 60
# the most bytes and halves that a hart loads of which it is asked whether they are its own
MOST_NARROW = 24
# what is said of a hart that isn't searched
LATE = "the time was over before it was searched: say more --seconds"
# ways of more work aren't gone where bytes and halves that no hart stores are what they open as, nor where all is shown of a hart if they are
MOST_BESIDE = 2


def are_apart(own, others):
    """Whether none of these stores, each from a byte on up to another one, touches an own word."""
    place, width = own
    return not any(place < end and low < place + width for low, end in others)


class Narrow:
    """The bytes and halves that a hart loads and no other one stores to: those that the search keeps; and those that the hart wasn't seen to store,
    which may be anything, as what a device writes, unless such are `constants`: what they open as, as words are. `may_be_own` says of a place and its
    bytes whether they may be the hart's own."""

    def __init__(self, constants=False):
        self.kept, self.inputs, self.stores, self.changes, self.may_be_own = frozenset(), frozenset(), frozenset(), 0, None
        self.constants = constants

    def may_be_kept(self, place, width):
        return (place, width) not in self.inputs and self.may_be_own(place, width)

    def keep(self, asked_for):
        """Takes those that a search asked for, as far as there is room; returns whether there are any."""
        found = set(sorted(asked_for)[:MOST_NARROW - len(self.kept)])
        self.changes += bool(found)
        self.stores |= found & self.inputs
        self.kept, self.inputs = self.kept | found, self.inputs - found
        return bool(found)

    def leave(self, program):
        """Leaves those that were loaded and never stored; returns whether there are any."""
        left = set() if self.constants else self.unstored(program)
        self.changes += bool(left)
        self.kept, self.inputs = self.kept - left, self.inputs | left
        return bool(left)

    def unstored(self, program):
        """Those that were loaded and never stored."""
        return {program.kept[which] for which in program.reads if program.kept[which][1] < 4 and which not in program.word_stores} - self.stores


class FoundHart(NamedTuple):
    """What was found of a hart: its program, the search, why it isn't covered, or None, in which turn of the ways that was, and, where it tells apart what
    is done of records, what was found without, which mostly has fewer states."""

    hart: int
    program: Program
    search: Search
    refused: object
    turn: int
    plain: object = None

    def moved(self):
        """By how many positions each step of a hart that is covered moves on its count of each queue."""
        return [each.moved for tree in self.search.reached().values() for _, _, following in leaves(tree) for each in following]

    def moves(self):
        """Whether a hart that is covered moves its count of each of its queues somewhere."""
        return all(party is None or any(steps) for party, *steps in zip(self.program.parties, *self.moved()))

    def is_apart(self, others):
        """Whether the same is found where other harts store there."""
        return all(are_apart(self.program.kept[which], others) for which in self.program.reads)

    def stands(self, others, turn):
        """Whether nothing more is to be sought in a turn where other harts store there: nothing more is found where something was refused."""
        return (self.refused or self.is_apart(others)) and (self.turn >= turn or not self.refused and not self.program.unowned)


def strides_of(found):
    """Of queues whose own count only moves on by several positions at once, in the states that were found, the greatest number that divides all these
    steps and the slots, if it is more than 1."""
    strides = [gcd(queue.size, *steps) if any(steps) else 1 for queue, *steps in zip(found.program.queues, *found.moved())]
    return {which: stride for which, (queue, stride) in enumerate(zip(found.program.queues, strides))
            if stride > 1 and not queue.has_tags and queue.is_linear()}


class Harts:
    """`clock` ends the search (certify_parts/clock.py): what isn't found by then is refused. `asked` are the bytes of each record that are to be written,
    and those that are to be read, each as a text or None."""

    def __init__(self, test, queues, clock, asked=(None, None), records=None):
        self.test, self.queues, self.clock, self.records = test, queues, clock, records
        self.wanted = [[wanted_of(queue, hart, asked) for queue in queues] for hart in range(len(test.harts))]
        self.needed = [needed_of(hart.code) for hart in test.harts]
        for queue in queues:
            if queue.has_tags and queue.tells == tags.ZERO:
                self.needed[queue.sender] = self.needed[queue.sender].with_hands(test.harts[queue.sender].code)
        self.flows = [flow_of(hart.code) for hart in test.harts]
        # of each hart at which turn and way it begins, which copies were seen, which ways came to an end, by which numbers positions are parted, and
        # which bytes and halves are its own, as the ways show it that don't count that a sender opens with all slots, and as the others do: without, what
        # it stores is seen later, or never
        self.begins, self.copies, self.ended, self.parts, self.narrow = (
            [each() for _ in test.harts] for each in (lambda: (0, 0), frozenset, set, dict, lambda: (Narrow(), Narrow())))
        # of each hart what was found, and at which turn and way, where bytes and halves that no hart stores are what they open as
        self.by_constants = [None] * len(test.harts)
        # where a word of counts wraps, position and slot part if the number of slots doesn't divide 2^32: more time seldom shows anything then
        self.may_be_covered = not any(not queue.has_tags and queue.is_linear() and SIZE % queue.size for queue in queues)
        self.shared = {place for place in test.words if any(queue.meets(place, 4) for queue in queues)}

    def found(self, found=None):
        """What was found of each hart, where no hart stores to what another one takes for its own. What is given isn't sought anew. All harts have
        their first turn before one has another."""
        stored = [set() for _ in self.test.harts]
        found = found or [None] * len(stored)
        for turn in range(TURNS):
            for _ in range(MOST_ROUNDS):
                others = [set().union(*stored[:hart], *stored[hart + 1:]) for hart in range(len(stored))]
                found = [each if each and each.stands(theirs, turn) else self.hart(hart, theirs, turn, each)
                         for hart, (each, theirs) in enumerate(zip(found, others))]
                after = [before | each.program.stored for before, each in zip(stored, found)]
                if after == stored:
                    break
                stored = after
            else:
                raise AssertionError("each round stores to further words")
        return found

    def ways(self, hart):
        """The turns and ways of a hart, in order: each with its number in that order, and its work."""
        is_tagged = any(queue.has_tags and queue.party(hart) is not None for queue in self.queues)
        is_sender = any(queue.has_tags and queue.sender == hart for queue in self.queues)
        # beside bits that tell a loaded word may be stored
        least = 0 if any(queue.has_tags and queue.has_bits() for queue in self.queues) else 4
        loads_bytes = any(word & 127 == LOAD and word >> 12 & 7 >= least for word in self.test.harts[hart].code)
        # where an index counts few rounds, remainders of sums tell little: what joins least without them comes first
        begins_anew = any(not queue.has_tags and queue.party(hart) is not None and queue.begins_soon_anew() for queue in self.queues)
        first = BY_SLOTS if is_tagged else TELLING[0] if begins_anew else WAYS[0]
        ways = sorted(WAYS, key=lambda way: way != first)
        for turn in range(TURNS):
            for number, way in enumerate(ways):
                if (is_sender or not way.opens_full) and (loads_bytes or not way.with_bytes):
                    yield (turn, number), way, (WORK_BY_SLOTS if is_tagged and way == BY_SLOTS else way.work)[turn]

    def hart(self, hart, others, turn, before):
        """The search over one hart, whose own words are those that no other one stores to, up to a turn. `before` is what was found already."""
        last, is_late = max(turn, self.begins[hart][0]), not before and self.clock.is_over()
        refused = before if before and before.refused else None
        reads = before if before and not before.refused and before.is_apart(others) else None
        for at, way, work in self.ways(hart):
            asked = self.asked(hart, others, way, at[0])
            # more work seldom shows which numbers it sends
            is_idle = at[0] and (reads and self.records or not self.may_be_covered) or way.work[0] > MOST_BESIDE and self.counts_constants(hart)
            if at < self.begins[hart] or at[0] > last or asked in self.ended[hart] or is_idle or self.clock.is_over() and (reads or refused):
                continue
            self.clock.tell(hart, at[1] + 1, len(WAYS))
            found = self.searched(hart, others, way, work, at[0], reads is not None, at)
            # one that names an instruction is told first
            if found.refused and (not refused or refused.refused.pc is None):
                refused = found
            if not found.refused or found.refused.pc is not None:
                self.ended[hart] |= {(each, self.numbers_kept(hart, others, way), *asked[2:]) for each in self.alike(asked[0], found.program)}
            if self.is_whole(found):
                # a further round begins here
                self.begins[hart] = at
                return self.going_on(found, others)
            reads = reads or (None if found.refused else found)
            self.copies[hart] |= found.search.seen
        if is_late and not reads and refused.refused.pc is None:
            refused = refused._replace(refused=Refused(None, LATE))
        if self.by_constants[hart] and (not reads or reads.program.unowned):
            return self.hart_by_constants(hart, others, turn, reads or refused)
        if not reads and not refused:
            # what was found stands no longer beside the others' stores, and all ways came to an end before these were known
            self.begins[hart], self.ended[hart] = (0, 0), set()
            return self.hart(hart, others, turn, None)
        return (reads or refused)._replace(turn=last)

    def hart_by_constants(self, hart, others, turn, before):
        """The search over one hart that isn't covered else, from where bytes and halves that no hart stores are what they open as."""
        without = self.begins[hart], self.narrow[hart], self.ended[hart]
        (self.begins[hart], found), self.by_constants[hart] = self.by_constants[hart], None
        self.narrow[hart], self.ended[hart] = (Narrow(True), Narrow(True)), set()
        found = self.going_on(found, others) if self.is_whole(found) and found.is_apart(others) else self.hart(hart, others, turn, before)
        if self.is_whole(found) and found.moves():
            return found
        self.begins[hart], self.narrow[hart], self.ended[hart] = without
        return before._replace(turn=max(turn, without[0][0]))

    def kept(self, hart, others, way):
        """The hart's own words, and the bytes and halves among these, each where it lies and its bytes."""
        stored = {place for low, end in others for place in range(low & ~3, end, 4)}
        words = [(place, 4) for place in set(self.test.words) - self.shared - stored]
        return sorted(words + [own for own in self.narrow[hart][way.opens_full].kept if are_apart(own, others)])

    def numbers_kept(self, hart, others, way):
        """How many own words a hart has, and how often what it has of bytes and halves changed."""
        return len(self.kept(hart, others, way)), self.narrow[hart][way.opens_full].changes

    def may_be_own(self, others, place, width):
        """Whether a byte or a half that a hart loads may be its own."""
        return {place & ~3, place + width - 1 & ~3} <= self.test.words.keys() \
            and not any(queue.meets(place, width) for queue in self.queues) and are_apart((place, width), others)

    def asked(self, hart, others, way, turn):
        """What a search depends on, except for its work."""
        far = way.mode == Mode.BY_PATH and tuple(told_apart_of(queue, not turn) for queue in self.queues)
        return (way._replace(work=()), self.numbers_kept(hart, others, way), self.copies[hart], far, self.records and self.records.known(),
                tuple(self.parts_at(hart, turn).items()))

    def parts_at(self, hart, turn):
        """By which numbers the queues' positions are parted, of those of which a search asked for that: in the second turn each is whole."""
        return {which: self.queues[which].size for which in self.parts[hart]} if turn else self.parts[hart]

    def alike(self, way, program):
        """The ways in which the same is found as in this one: they differ in what nothing depended on."""
        same, ways = {"loosens", "with_bytes"} - program.depends, [way]
        if any(queue.counting() is not queue for queue in self.queues):
            same.discard("loosens")
        for name in same:
            ways += [each._replace(**{name: not getattr(each, name)}) for each in ways]
        return ways

    def is_whole(self, found):
        return not found.refused and not found.program.unowned and (not self.records or self.records.are_shown(found.program, found.search))

    def is_whole_by_constants(self, hart):
        """Whether all is shown of a hart where bytes and halves that no hart stores are what they open as."""
        return self.by_constants[hart] is not None and self.is_whole(self.by_constants[hart][1])

    def counts_constants(self, hart):
        """Whether all is shown of a hart where bytes and halves that no hart stores are what they open as, or they are so where it is searched."""
        return self.is_whole_by_constants(hart) or self.narrow[hart][0].constants

    def going_on(self, found, others):
        """What was found of a hart, or, if its states don't show that it goes on, what one of a few other ways finds of which they do."""
        new = (way for way in TELLING if self.asked(found.hart, others, way, 0) not in self.ended[found.hart])
        further = (self.searched(found.hart, others, way, way.work[0], 0, True) for way in new)
        return next((each for each in chain([found], further) if self.is_whole(each) and goes_on(each.program, each.search)), found)

    def doing_all(self, found):
        """What was found of the harts; of those whose states don't show that they do to records all that is asked, what shows it, if that is found."""
        after = list(found)
        if not any(hart.refused or hart.program.unowned for hart in found):
            for hart in found:
                if not is_shown(hart.program, hart.search):
                    rest = [each for other in after if other.hart != hart.hart for each in (other, other.plain) if each]
                    after[hart.hart] = self.doing(hart, rest)
        return after

    def doing(self, found, rest):
        """What was found of a hart, or what shows that it does to records all that is asked. `rest` is what was found of the others."""
        further, may_stand = self.by_done(found, set().union(*(each.program.stored for each in rest))), not goes_on(found.program, found.search)
        whole = (each for each in further if self.is_whole(each) and (may_stand or goes_on(each.program, each.search)))
        return next((each._replace(plain=found) for each in whole if all(other.is_apart(each.program.stored) for other in rest)), found)

    def by_done(self, found, others):
        """What a few ways, and at last the one by which a hart was found, find of it where states are told apart by what is done of records: if they find
        states, these show what is asked. If the own count only moves on by several positions at once, positions are parted by that number at first: so it is
        known of which records the slots' end is passed, mostly none."""
        hart, parts, strides = found.hart, self.parts[found.hart], strides_of(found)
        ways = [*((way, way.work[0]) for way in DOING), *((way, work) for at, way, work in self.ways(hart) if at == self.begins[hart])]
        for parted in (strides, {}) if strides else ({},):
            for way, work in ways:
                self.parts[hart] = {**parted, **parts}
                yield self.searched(hart, others, way._replace(by_done=True), work, 0, True)

    def refused_soon(self):
        """Of how many harts each of a few searches names an instruction that isn't shown to keep the protocol."""
        def is_refused(hart, way):
            refused = self.searched(hart, set(), way, way.work[0], 0).refused
            return refused is not None and refused.pc is not None

        return sum(all(is_refused(hart, way) for way in SOON) for hart in range(len(self.test.harts)))

    def searched(self, hart, others, way, work, turn, wants_all=False, at=None):
        """What one way finds of a hart, where the others store there. If that isn't all, it is sought anew with the bytes and halves of its own. `at` is the
        turn and the way, where what those are that no hart stores may help."""
        narrow, before = self.narrow[hart][way.opens_full], None
        narrow.may_be_own = partial(self.may_be_own, others)
        while True:
            kept = narrow.kept
            found = self.searched_with(hart, others, way, work, turn, wants_all)
            is_over = found.refused and found.refused.pc is None
            if (found.refused or found.program.unowned) and narrow.keep(found.program.asked_for) and not is_over:
                before = kept, found
            # one that was refused may not have come to the stores of what it keeps
            elif found.refused or not narrow.leave(found.program):
                return found
            else:
                if at and not self.is_whole_by_constants(hart) and found.moves():
                    self.by_constants[hart] = at, found
                if before and narrow.kept == before[0]:
                    return before[1]

    def searched_with(self, hart, others, way, work, turn, wants_all):
        """The same with what is kept of bytes and halves, anew as long as what it stores turns out to matter at further places. With `wants_all` it
        ends as soon as not all will be shown."""
        while True:
            parts = self.parts_at(hart, turn)
            queues = [queue.parted(parts[which]) if which in parts else queue.counting() if way.loosens else queue for which, queue in enumerate(self.queues)]
            program = Program(self.test, queues, hart, self.kept(hart, others, way), self.narrow[hart][way.opens_full], self.needed[hart], way.with_bytes,
                              way.loosens, self.records, way.opens_full, way.mode == Mode.BY_ROOM, wants_all, self.wanted[hart], way.by_done)
            search = Search(program, way, self.copies[hart], int(work * WORK), self.clock, self.flows[hart], not turn)
            try:
                search.run_by_path() if way.mode == Mode.BY_PATH else search.run()
            except Matters as found:
                self.needed[hart] = needed_of(self.test.harts[hart].code, self.needed[hart].matters | found.pcs, self.needed[hart].hands)
            except Hands as found:
                self.needed[hart] = self.needed[hart].with_hands(self.test.harts[hart].code, found.pcs, found.places, found.addresses)
            except Parts as found:
                self.parts[hart][found.which] = found.part
            except Refused as why:
                return FoundHart(hart, program, search, why, turn)
            else:
                return FoundHart(hart, program, search, None, turn)
