"""The functions by which tools/certify looks for states (tools/certify_parts), each asked by itself for what was worked out by hand: which states are
joined, and to what; which cover others; where ranges end, and where a split's edges are; words that a tag's store hands over; and ranks."""

from types import SimpleNamespace

import certificates as reference
from certify_parts import done, forms, handed, queues, ranks, tags
from certify_parts.groups import Group, Groups
from certify_parts.live import flow_of
from certify_parts.search import FEW_COUNTS, Mode, Order, Search, told_apart_of
from certify_parts.steps import BLOCK, MOST_SPLITS, Program, Refused, leaves
from certify_parts.values import Share, State, Values

FOUR = queues.described({"head": 0, "tail": 4, "slots": 8}, {"size": "4"})
SIX = queues.described({"head": 0, "tail": 4, "slots": 8}, {"size": "6", "index": "wrapping"})
# indices of a byte, which count 32 turns of eight slots
TURNS = queues.described({"head": 0, "tail": 1, "slots": 4}, {"size": "8", "bytes": "1"})
TAGGED = tags.Tagged(0, 1, 0, 4, 4, 0, 4, 0, 4, tags.ZERO, 0)
LARGE = queues.described({"head": 0, "tail": 4, "slots": 8}, {"size": "256"})
NOTHING = (None,) * 32
WAYS_MEET, OUTER, ELSEWHERE = 4, 8, 0
N, A, P = ("n", 0), ("A", 0), ("p", 0)


def number(n):
    return forms.number(n)


def count(more=0, factor=1):
    return forms.variable_of("n", 0, factor, more)


def share(count_of, first=0, last=None, low=1, high=None, begin=0, end=None):
    return Share(count_of, first, first if last is None else last, low, low if high is None else high, begin, begin if end is None else end)


ONE, NEXT = share(0), share(1, 1)


def state(of, *values, pc=ELSEWHERE, **more):
    """A state whose registers from x1 on are these."""
    return State(pc, (number(0), *values, *NOTHING[1 + len(values):]), (), (of,), **{"others": (), **more})


def search(queue=FOUR, mode=Mode.TOGETHER, edges=(), order=Order.COUNTS_FIRST, **more):
    """A search that hasn't begun, of a hart that sends."""
    program = Values([queue], 0)
    vars(program).update(edges=dict(edges), looks=[], kept=[], needed=SimpleNamespace(hands=None), code=())
    found = object.__new__(Search)
    vars(found).update({"program": program, "mode": mode, "order": order.value, "far": [queue.start + told_apart_of(queue, True)], "phased": [],
                        "copies": set(), "copied": set(), "failed": {}, "spelled_once": {}, "numbers": {}, "asked": (None, None), "groups": {},
                        "flow": SimpleNamespace(meets={WAYS_MEET}, outer={OUTER})} | more)
    return found


def program(queue=FOUR, settles=False, executes=None):
    """A hart's program that makes of a state what is said."""
    found = object.__new__(Program)
    Values.__init__(found, [queue], 0)
    vars(found).update(edges={}, settles=settles, execute=executes or (lambda state: []))
    return found


def joined_share(shares, queue=FOUR, **more):
    return search(queue, **more).joined_share(0, shares)


def joined(*states, is_whole=False, **more):
    """The first register of what states are joined to, and how many values are lost."""
    found, lost = search(**more).joined(list(states), is_whole)
    return found and found.registers[1], lost


def through(one, other, ranges, queue=FOUR, order=Order.COUNTS_FIRST):
    """The forms through two numbers, each with what its variables are."""
    return list(search(queue, order=order).through(*((n, {variable: (at, at) for variable, at in zip(ranges, known)}) for n, *known in (one, other))))


def cases(split, **more):
    """How many cases a state has that is parted wherever a range still passes a number, and the edges that this leaves."""
    def executes(given):
        if given.shares[0].first <= split.at < given.shares[0].last:
            raise split
        return []

    of = program(executes=executes, **more)
    return sum(1 for _ in leaves(of.tree(state(share(None, 0, 3))))), of.edges


def endless(of):
    """What is said of a state that is parted again and again."""
    def executes(given):
        raise forms.Split(P, given.shares[0].first)

    try:
        program(executes=executes).tree(of)
    except Refused as refused:
        return refused.why
    return "it ends"


def blocks(of):
    """Where a state is parted by blocks of positions, or None."""
    try:
        Program.split_blocks(of)
    except forms.Split as split:
        return split.variable, split.at
    return None


def parted(of, variable, at):
    """The ranges of the two halves."""
    found = program().halves(of, forms.Split(variable, at))
    return [each.others or tuple(each.shares[0][1:]) for each in found]


def near(*states, of):
    """The numbers of the groups that are near a state, of groups with these."""
    groups = Groups()
    for each in states:
        groups.add(Group([each], each))
    return [group.number for group in groups.near(of)]


def split_of(op, x, y, limits):
    """Where a compare of a word that is handed over parts it, or None."""
    try:
        handed.split_compare(op, x, y, state(None, handed=(limits,)))
    except forms.Split as split:
        return split.at
    return None


def computed(op, x, y, limits=(1, 9), *, is_immediate=True, is_kept=True):
    """What an operation on a word of this range makes, or where the word is parted."""
    try:
        return handed.computed(op, x, y, is_immediate, state(None, handed=(limits,)), is_kept)
    except forms.Split as split:
        return split.at


def covers_words(wanted, values, of=ONE):
    """Whether a state with words of 1 to 9 covers one with these values."""
    return search().covers(state(of, *wanted, handed=((1, 9),)), state(of, *values))


def met(*given):
    """The registers and the words that states with a word are joined to, by each one's range and registers."""
    found, lost = search().joined([state(ONE, *values, handed=(limits,)) for limits, *values in given])
    return found.registers[1:3], found.handed, lost


def ranking(ways, known=(), falling=0, ranges=(8,)):
    """Ranks of states with a variable up to 8: of each its ways, as where they lead with which form, by how much that variable, or another
    one, falls, and up to which number a new one is; and the ranks that are known."""
    found = object.__new__(ranks.Ranking)
    found.states = [SimpleNamespace(known=SimpleNamespace(ranges=ranges))] * len(ways)
    found.ways = [[SimpleNamespace(to=to, forms=(of,), raises=[(falling, falls)] * bool(falls), ranges=(new, *ranges)) for to, of, falls, new in each]
                  for each in ways]
    found.ranks = [reference.number(0)] * (len(ways) - len(known)) + list(known)
    return found


def shown(record, handed_on, done_before, new):
    """What is done after a leaf, of records of four bytes of which these bits are wanted."""
    return done.done_after(SimpleNamespace(queues=[FOUR], wanted=[record]), [done_before], [new], [handed_on])


WORD = forms.variable_of("w", 0)
# of a way the variable that it keeps, or the new one
KEEPS, NEW = reference.Form(0, (0, 1)), reference.Form(0, (1,))
# a way on, and one back by which the variable falls by 1
ROUND = [[(1, KEEPS, 0, 0)], [(0, KEEPS, 1, 0)]]
LEAVES = [[*ROUND[0], (2, KEEPS, 0, 0)], ROUND[1], []]
# what is asked, of what, and what it says
ROWS = (
    ("a range without edges is widened to all numbers", search().widened, (P, 2, 3, 8), (0, 7)),
    ("it ends after an edge before it", search(edges={P: {1}}).widened, (P, 2, 3, 8), (2, 7)),
    ("and at one that it ends at", search(edges={P: {3}}).widened, (P, 2, 3, 8), (0, 3)),
    ("at the nearest of several", search(edges={P: {0, 1, 4, 6}}).widened, (P, 2, 3, 8), (2, 4)),
    ("but at none that it passes", search(edges={P: {2}}).widened, (P, 2, 3, 8), (0, 7)),
    ("nor at one of another variable", search(edges={("t", 0): {1}}).widened, (P, 2, 3, 8), (0, 7)),

    ("ranges side by side are one", Search.one_range, (share(None, 0, 1), share(None, 2, 3), FOUR), share(None, 0, 3)),
    ("so are such that overlap, in either order", Search.one_range, (share(None, 1, 3), share(None, 0, 2), FOUR), share(None, 0, 3)),
    ("with a gap they aren't", Search.one_range, (share(None, 0, 1), share(None, 3, 3), FOUR), None),
    ("nor if two ranges differ", Search.one_range, (share(None, 0, 1, 1), share(None, 2, 3, 2), FOUR), None),
    ("nor of two counts", Search.one_range, (share(0, 0), share(1, 1), FOUR), None),
    ("what is owned makes one, too", Search.one_range, (share(None, 0, 0, 0), share(None, 0, 0, 1, 2), FOUR), share(None, 0, 0, 0, 2)),
    ("but not of tags, of which the least counts", Search.one_range, (share(None, 0, 0, 0), share(None, 0, 0, 1), TAGGED), None),
    ("and the turn", Search.one_range, (share(None, 0, 0, 1, 1, 0, 2), share(None, 0, 0, 1, 1, 3, 4), TURNS), share(None, 0, 0, 1, 1, 0, 4)),

    ("a count that all have stays", joined_share, ([share(2, 2, low=1), share(2, 2, low=3)],), share(2, 2, 2, 1, 3)),
    ("two have none together", joined_share, ([share(1, 1), share(2, 2)],), share(None, 1, 2)),
    ("four positions are what they are", joined_share, ([share(n, n) for n in (0, 1, 2, 3)], LARGE), share(None, 0, 3)),
    ("five are all", joined_share, ([share(n, n) for n in range(5)], LARGE), share(None, 0, 255)),
    ("up to an edge", lambda: joined_share([share(n, n) for n in range(5)], LARGE, edges={P: {99}}), (), share(None, 0, 99)),
    ("but not where positions are told apart", lambda: joined_share([share(n, n) for n in range(5)], LARGE, mode=Mode.BY_POSITION), (), share(None, 0, 4)),
    ("of five ranges of what is owned all from 1 on may be", joined_share, ([share(0, low=n) for n in (2, 3, 4, 5, 6)], LARGE), share(0, 0, 0, 1, 256)),
    ("and from 0 if one has 0", joined_share, ([share(0, low=n) for n in range(5)], LARGE), share(0, 0, 0, 0, 256)),
    ("of four what there is", joined_share, ([share(0, low=n) for n in (2, 3, 4, 6)], LARGE), share(0, 0, 0, 2, 6)),
    ("of tags the least", joined_share, ([share(0, low=n) for n in (1, 3)], TAGGED), share(0, 0, 0, 1, 1)),
    ("two turns are all", joined_share, ([share(None, 0, begin=n) for n in (3, 4)], TURNS), share(None, 0, 0, 1, 1, 0, 31)),
    ("one is itself", joined_share, ([share(None, 0, begin=3)] * 2, TURNS), share(None, 0, 0, 1, 1, 3, 3)),

    ("two numbers that go with the count are a form of it", joined, (state(ONE, number(8)), state(NEXT, number(12))), (count(8, 4), 0)),
    ("two numbers at one count are lost", joined, (state(ONE, number(8)), state(ONE, number(12))), (None, 1)),
    ("no form is both", Search.contradict, ([8, 12], [state(ONE)] * 2), True),
    ("at two counts one may be", Search.contradict, ([8, 12], [state(ONE), state(NEXT)]), False),
    ("and where one isn't known", Search.contradict, ([8, None, 8], [state(ONE)] * 3), False),
    ("so is what falls as it rises", joined, (state(ONE, number(12)), state(NEXT, number(8))), (None, 1)),
    ("what is the same is no form", joined, (state(ONE, number(8)), state(NEXT, number(8))), (number(8), 0)),
    ("what isn't known of one isn't lost", joined, (state(ONE, number(8)), state(NEXT, None)), (None, 0)),
    ("where nothing may be lost there is no state", lambda: joined(state(ONE, number(8)), state(ONE, number(12)), is_whole=True), (), (None, 1)),
    ("of tags a state that owns less than another loses that", lambda: joined(state(share(0)), state(share(0, low=2)), queue=TAGGED), (), (None, 1)),

    ("a form through two numbers", through, ((8, 0), (16, 2), [N]), [count(8, 4)]),
    ("none is a number more by a part of the step", through, ((8, 0), (13, 2), [N]), []),
    ("what falls is spelled by what is owned, which does", through, ((7, 0, 3), (6, 1, 2), [N, A]),
     [forms.variable_of("A", 0, 1, 4)] * 2),
    ("positions first", lambda: through((8, 0, 0), (12, 1, 1), [N, P], order=Order.POSITIONS_FIRST), (), [forms.variable_of("p", 0, 4, 8), count(8, 4)]),
    ("or counts", through, ((8, 0, 0), (12, 1, 1), [N, P]), [count(8, 4), forms.variable_of("p", 0, 4, 8)]),

    ("a range covers a part of it", search().covers, (state(share(None, 0, 3)), state(share(2, 2))), True),
    ("and no more", search().covers, (state(share(None, 0, 2)), state(share(3, 3))), False),
    ("nor less", search().covers, (state(share(None, 2, 3)), state(share(1, 1))), False),
    ("what may be owned is within it", search().covers, (state(share(None, 0, 0, 1, 2)), state(share(None, 0, 0, 1, 3))), False),
    ("of tags more may be owned", search(TAGGED).covers, (state(share(None, 0, 0, 1, 1)), state(share(None, 0, 0, 2, 2))), True),
    ("but not less", search(TAGGED).covers, (state(share(None, 0, 0, 2, 2)), state(share(None, 0, 0, 1, 1))), False),
    ("a count covers itself alone", search().covers, (state(share(2, 2)), state(share(None, 2, 2))), False),
    ("what isn't known covers each value", search().covers, (state(ONE, None), state(ONE, number(5))), True),
    ("a value doesn't cover what isn't known", search().covers, (state(ONE, number(5)), state(ONE, None)), False),
    ("a form covers the number that it is there", search().covers, (state(share(None, 0, 3), count(8, 4)), state(share(1, 1), number(12))), True),
    ("and no other one", search().covers, (state(share(None, 0, 3), count(8, 4)), state(share(1, 1), number(16))), False),
    ("bits cover more bits", search().covers, (state(ONE, forms.Bits(1, 1)), state(ONE, forms.Bits(3, 1))), True),
    ("and no fewer", search().covers, (state(ONE, forms.Bits(3, 1)), state(ONE, forms.Bits(1, 1))), False),

    ("values a number apart at one count are told apart", search().are_apart, (state(ONE, number(1)), state(ONE, number(2))), True),
    ("at two counts they aren't", search().are_apart, (state(ONE, number(1)), state(NEXT, number(2))), False),
    ("nor is the same", search().are_apart, (state(ONE, number(1)), state(ONE, number(1))), False),
    ("nor a form and a number", search().are_apart, (state(ONE, number(1)), state(ONE, count())), False),

    ("two states whose ranges make one are one", lambda a, b: search().as_one(a, b).shares, (state(share(None, 0, 1)), state(share(None, 2, 3))),
     (share(None, 0, 3),)),
    ("where two values differ they aren't", search().as_one, (state(ONE, number(1)), state(ONE, count(1))), None),
    ("where ways meet the value that both are stays", lambda a, b: search().as_one(a, b).registers[1],
     (state(ONE, number(1), pc=WAYS_MEET), state(ONE, count(1), pc=WAYS_MEET)), number(1)),
    ("or what isn't known", lambda a, b: search().as_one(a, b).registers[1], (state(ONE, number(1), pc=WAYS_MEET), state(ONE, None, pc=WAYS_MEET)), None),
    ("nor two ranges of a word", search().as_one, (state(ONE, WORD, handed=((1, 9),)), state(ONE, WORD, handed=((1, 5),))), None),
    ("but not two numbers", search().as_one, (state(ONE, number(1), pc=WAYS_MEET), state(ONE, number(2), pc=WAYS_MEET)), None),
    ("a word of an index stays where it is", search().as_one, (state(ONE, forms.Word(0, count())), state(ONE, forms.Word(0, count()))), None),

    ("the first three counts are early", search().is_early, (state(share(2, 2)),), True),
    ("the next isn't", search().is_early, (state(share(3, 3)),), False),
    ("where positions are told apart two rounds are", search(mode=Mode.BY_POSITION).is_early, (state(share(8, 0)),), True),
    ("and no more", search(mode=Mode.BY_POSITION).is_early, (state(share(9, 1)),), False),
    ("counts are told apart for two rounds", told_apart_of, (LARGE, False), 512),
    ("or a few", told_apart_of, (LARGE, True), FEW_COUNTS),
    ("between outermost loops, up to there", search().is_within, (state(share(8, 0)),), True),
    ("no further", search().is_within, (state(share(9, 1)),), False),
    ("nor where one begins", search().is_within, (state(ONE, pc=OUTER),), False),
    ("states are told apart by nothing", search().key, (state(share(1, 1)),), search().key(state(share(2, 2)))),
    ("by positions", lambda: search(mode=Mode.BY_POSITION).key(state(share(1, 1)))[1:3], (), (((1, 1),), ())),
    ("by what is owned too", lambda: search(mode=Mode.BY_OWNED).key(state(share(1, 1, low=2, high=3)))[1:3], (), (((1, 1),), ((2, 3),))),
    ("by whether some is, and by blocks", lambda: search(LARGE, Mode.BY_ROOM).key(state(share(None, BLOCK, low=0)))[1:3], (), ((), ((False, 1),))),
    ("one is some", lambda: search(LARGE, Mode.BY_ROOM).key(state(share(None, BLOCK - 1)))[1:3], (), ((), ((True, 0),))),

    ("a split makes two cases, and an edge", cases, (forms.Split(P, 1),), (2, {P: {1}})),
    ("one by one, where words are settled, none", lambda: cases(forms.Split(P, 1, True), settles=True), (), (2, {})),
    ("others one there too", lambda: cases(forms.Split(P, 1), settles=True), (), (2, {P: {1}})),
    ("elsewhere one", cases, (forms.Split(P, 1, True),), (2, {P: {1}})),
    ("as many splits as a certificate may have", endless, (state(share(None, 0, MOST_SPLITS + 1)),), "more cases than a certificate may have"),
    ("halves of positions", parted, (state(share(None, 0, 3)), P, 1), [(0, 1, 1, 1, 0, 0), (2, 3, 1, 1, 0, 0)]),
    ("of what is owned", parted, (state(share(None, 0, 0, 0, 4)), A, 0), [(0, 0, 0, 0, 0, 0), (0, 0, 1, 4, 0, 0)]),
    ("of turns", parted, (state(share(None, begin=0, end=9)), ("t", 0), 4), [(0, 0, 1, 1, 0, 4), (0, 0, 1, 1, 5, 9)]),
    ("of another number", parted, (state(ONE, others=((0, 1), (0, 7))), ("z", 1), 2), [((0, 1), (0, 2)), ((0, 1), (3, 7))]),
    ("positions of two blocks are parted", blocks, (state(share(None, 5, BLOCK)),), (P, BLOCK - 1)),
    ("of one they aren't", blocks, (state(share(None, 0, BLOCK - 1)),), None),

    ("states with the same values are near", lambda: near(state(ONE, number(1)), state(NEXT, number(1)), of=state(share(2, 2), number(1))), (), [0, 1]),
    ("and those that may cover another form", lambda: near(state(ONE, number(1)), state(NEXT, count()), of=state(share(2, 2), count(1))), (), [0]),

    ("a word is of the least range that tags' bytes have", handed.widened, ([(1, 3), (2, 300)],), (1, 65535)),
    ("also up to its end", handed.widened, ([(1, 3), (2, 255)],), (1, 255)),
    ("one that all have stays", handed.widened, ([(3, 5), (3, 5)],), (3, 5)),
    ("its least number is small", handed.widened, ([(20, 30), (40, 50)],), (handed.MOST_LOW, 255)),
    ("a sum that wraps at no number is another word", handed.shift_of, (WORD.plus(number(4)), (1, 9)), 4),
    ("one less is so", handed.shift_of, (WORD.plus(number(-1)), (1, 9)), -1),
    ("one that wraps for some isn't", handed.shift_of, (WORD.plus(number(-2)), (1, 9)), 0),
    ("up to where it doesn't wrap", handed.wraps_at, (WORD.plus(number(-2)), (1, 9)), 1),
    ("an equal number stands alone", split_of, ("beq", WORD, number(5), (1, 9)), 4),
    ("also the first", split_of, ("bne", WORD, number(1), (1, 9)), 1),
    ("one that it can't be parts nothing", split_of, ("beq", WORD, number(10), (1, 9)), None),
    ("below a number", split_of, ("bltu", WORD, number(5), (1, 9)), 4),
    ("and above", split_of, ("bltu", number(5), WORD, (1, 9)), 5),

    ("where a sum wraps it parts, too", split_of, ("bltu", WORD.plus(number(-2)), number(5), (1, 9)), 1),
    ("signed numbers as others", split_of, ("blt", WORD, number(5), (1, 9)), 4),
    ("but 0 alone", split_of, ("blt", WORD, number(5), (0, 9)), 0),
    ("a count parts nothing", split_of, ("bltu", WORD, count(), (1, 9)), None),
    ("a word and a number is parted where it wraps", computed, ("add", WORD, number(-2)), 1),
    ("unless it is not kept", lambda: computed("add", WORD, number(-2), is_kept=False), (), WORD.plus(number(-2))),
    ("a word less itself is a number", lambda: computed("sub", WORD, WORD, is_immediate=False), (), number(0)),
    ("where registers' sums are kept", lambda: computed("sub", WORD, WORD, is_immediate=False, is_kept=False), (), None),
    ("two words are none", lambda: computed("add", WORD, forms.variable_of("w", 1), is_immediate=False), (), None),
    ("a shifted word is a multiple", computed, ("slli", WORD, number(2)), WORD.times(4)),
    ("a shift by a word is nothing", computed, ("slli", number(1), WORD), None),
    ("nor is another operation", computed, ("xor", WORD, number(1)), None),
    ("a word covers a number of its range", covers_words, ([WORD], [number(9)]), True),
    ("and none past it", covers_words, ([WORD], [number(10)]), False),
    ("nor one before it", covers_words, ([WORD], [number(0)]), False),
    ("two of it cover what goes together", covers_words, ([WORD, WORD.plus(number(1))], [number(5), number(6)]), True),
    ("and nothing else", covers_words, ([WORD, WORD.plus(number(1))], [number(5), number(7)]), False),
    ("a multiple covers multiples", covers_words, ([WORD.times(4)], [number(8)]), True),
    ("also of a position", covers_words, ([WORD.times(4)], [forms.variable_of("p", 0, 4, 8)], share(None, 0, 3)), True),
    ("but not a number beside", covers_words, ([WORD.times(4)], [forms.variable_of("p", 0, 4, 9)], share(None, 0, 3)), False),
    ("a number more covers one more", covers_words, ([WORD.plus(number(1))], [number(10)]), True),
    ("and none less", covers_words, ([WORD.plus(number(1))], [number(1)]), False),
    ("and no part of one", covers_words, ([WORD.times(4)], [number(9)]), False),
    ("a count that has no range is in none", covers_words, ([WORD], [count()], share(None)), False),
    ("words that meet are one of a wider range", met, (((1, 9), WORD), ((1, 300), WORD)), ((WORD, None), ((1, 65535),), 0)),
    ("of numbers more, too", met, (((1, 9), WORD.plus(number(1))), ((1, 300), WORD.plus(number(1)))), ((WORD, None), ((2, 65535),), 0)),
    ("a multiple is one of such", met, (((1, 9), WORD.times(4)), ((1, 300), WORD.times(4))), ((WORD.times(4), None), ((1, 65535),), 0)),
    # the one less is up to 255, as bytes are, and the one more up to 65535, as halves are
    ("what is less by a number goes with it, and may make it narrower", met,
     (((1, 255), WORD, WORD.plus(number(-1))), ((1, 256), WORD, WORD.plus(number(-1)))), ((WORD, WORD.plus(number(-1))), ((1, 256),), 0)),
    ("so may what is more", met, (((1, 9), WORD, WORD.plus(number(1))), ((1, 300), WORD, WORD.plus(number(1)))),
     ((WORD, WORD.plus(number(1))), ((1, 65534),), 0)),

    ("all that is wanted is done of a record", shown, (0b11, 1, 0b01, 0b10), None),
    ("before it is handed on", shown, (0b11, 1, 0b0001_11, 0), (0b00,)),
    ("and what is done of the next stays", shown, (0b11, 1, 0b110011, 0), (0b11,)),

    ("an edge from a loop's end to its beginning", lambda: flow_of([0x13, 0xFE000EE3])[:2], (), (frozenset({0}), frozenset())),
    ("loops, those to which they lead first", lambda: [sorted(each) for each in ranks.components([[1], [2], [1], [0]])], (), [[1, 2], [0], [3]]),
    ("the longest way from each", ranks.longest_paths, ([[1, 2], [2], []],), [2, 1, 0]),
    ("of a loop there is none", ranks.longest_paths, ([[1], [0]],), None),
    ("a rank is more than that to which a way leads", ranking([[(1, KEEPS, 0, 0)], []], [reference.number(3)]).above, (0,), {0: reference.number(4)}),
    ("by the variable that it keeps", ranking([[(1, KEEPS, 0, 0)], []], [reference.Form(2, (6,))]).above, (0,), {0: reference.Form(3, (6,))}),
    ("less where that falls", ranking([[(1, KEEPS, 1, 0)], []], [reference.Form(2, (6,))]).above, (0,), {0: reference.Form(0, (6,))}),
    ("of a new one by the most that it may be", ranking([[(1, NEW, 0, 5)], []], [reference.Form(2, (6,))]).above, (0,), {0: reference.number(33)}),
    ("without a bound there is none", ranking([[(1, NEW, 0, None)], []], [reference.Form(2, (6,))]).above, (0,), None),
    ("of two ways the greater", ranking([[(1, KEEPS, 0, 0), (2, KEEPS, 0, 0)], [], []], [reference.number(3), reference.Form(0, (2,))]).above, (0,),
     {0: reference.Form(4, (2,))}),
    ("round about a variable falls once", ranking(ROUND).round_about, ([0, 1],), {0: reference.Form(1, (2,)), 1: reference.Form(0, (2,))}),
    ("above what comes after it", ranking(LEAVES, [reference.number(5)]).round_about, ([0, 1],), {0: reference.Form(7, (2,)), 1: reference.Form(6, (2,))}),
    ("unless that has no greatest rank", ranking([[*ROUND[0], (2, NEW, 0, None)], ROUND[1], []], [reference.Form(0, (1,))]).round_about, ([0, 1],), None),
    ("nor where another variable falls", lambda: ranking(ROUND, falling=1).round_about([0, 1]), (), None),
    ("nor where nothing falls", ranking([ROUND[0], [(0, KEEPS, 0, 0)]]).round_about, ([0, 1],), None),
    ("then a number is above what comes after", ranking(LEAVES, [reference.number(5)]).numbers, ([0, 1],), {0: reference.number(6), 1: reference.number(6)}),
    ("a number of the sign", forms.signed, (0xFF, 8), -1),
    ("bounds of a form", forms.bounds, (forms.form(5, {P: 2, A: -1}), {P: (0, 3), A: (1, 2)}), (3, 10)),
    ("of one that has no range there are none", forms.bounds, (count(), {}), None),
    ("numbers that wrap are none", forms.numbers_of, (forms.variable_of("p", 0, 1, -1), {P: (0, 3)}), None),
    ("before they do they are", forms.numbers_of, (forms.variable_of("p", 0, 1, -1), {P: (1, 3)}), (0, 2)),
    ("a word's count that is known", lambda: Values([SIX], 0).known(forms.Word(0, count(1)), state(share(5, 5))), (), 0),
    ("positions of turns", lambda: Values([TURNS], 0).position(0), (), forms.form(0, {P: 1, ("t", 0): 8})),
    ("turns are told apart where there are many", TURNS.turns, (), 32),
    ("of four they aren't", lambda: TURNS._replace(size=64, capacity=64).turns(), (), 1),
)


def tried():
    """What is wrong, each as a line, and how many rows there are."""
    came = [(name, call(*given), wanted) for name, call, given, wanted in ROWS]
    return [f"{name}: {found}, and not {wanted}" for name, found, wanted in came if found != wanted], len(ROWS)
