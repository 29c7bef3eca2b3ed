"""Words that a sender may hand over by a store of a tag, of which not more is known than that they aren't 0, or fit some bytes.

A variable ("w", k) is such a word, and a state has the range of each. They are kept of what flows into a tag's store alone, as a number more or a
multiple of one, and numbered as they come first in registers and words; where states meet, words meet in one of a wider range.
"""

from .forms import SIZE, Form, Split, bounds, form, has_word, number, signed, variable_of

# the greatest numbers of the ranges that joins make, and the greatest of their least ones
MOST, MOST_LOW = (255, 65535, SIZE - 1), 16


class Hands(Exception):
    """What a search is to know of words that a tag's store may hand over.

    pcs        where they are stored, to tags and to own words
    places     the own words that hold them
    addresses  the own words of which an address is made
    """

    def __init__(self, pcs=(), places=(), addresses=()):
        super().__init__(pcs, places, addresses)
        self.pcs, self.places, self.addresses = frozenset(pcs), frozenset(places), frozenset(addresses)


def see_load(program, which, pc):
    """Asks for a search that knows of an own word whether a tag's store may hand it over, or an address is made of it."""
    to, hands, place = program.code[pc // 4] >> 7 & 31, program.needed.hands, program.kept[which]
    stores = program.word_stores.get(which, set())
    if to in hands.registers[pc // 4 + 1] and not (place in hands.places and stores <= hands.pcs):
        raise Hands(stores, {place})
    if place not in hands.addresses and to in hands.in_addresses[pc // 4 + 1]:
        raise Hands(addresses={place})


def is_handed(program, pc, where):
    """Whether a tag's store may hand over what a register or a word holds, and no address is made of it."""
    hands = program.needed.hands
    if not hands or pc > 4 * len(program.code):
        return False
    if where < 32:
        return where in hands.registers[pc // 4] and where not in hands.in_addresses[pc // 4]
    return program.kept[where - 32] in hands.places and program.kept[where - 32] not in hands.addresses


def word_in(value):
    """The word that a value is a multiple of, but for a number, and how many times; or None."""
    if isinstance(value, Form) and len(value.terms) == 1 and value.terms[0][0][0] == "w":
        (_, which), m = value.terms[0]
        return which, m
    return None


def shift_of(value, limits):
    """What a word and a number more is more than the word, if that wraps at no number; else 0."""
    low, high = (value.constant + limit for limit in limits)
    return value.constant - low // SIZE * SIZE if low // SIZE == high // SIZE else 0


def numbered(state):
    """The state with its words numbered anew, and of each the one that it was, and how much more it is."""
    if not state.handed:
        return state, ()
    new, origins, ranges = {}, [], []

    def renamed(value):
        if not has_word(value):
            return value
        found = word_in(value)
        if found is None:
            return None
        old, m = found
        low, high = state.handed[old]
        if low == high:
            return number(value.constant + m * low)
        if old not in new:
            shift = shift_of(value, (low, high)) if m == 1 else 0
            new[old] = len(origins), shift
            origins.append((old, shift))
            ranges.append((low + shift, high + shift))
        which, shift = new[old]
        return form(value.constant - m * shift, {("w", which): m})

    registers, words = (tuple(map(renamed, values)) for values in (state.registers, state.words))
    return state._replace(registers=registers, words=words, handed=tuple(ranges)), tuple(origins)


def solved(value, wanted, program, state):
    """What a word is, as a form, where a value of the state is the wanted one, which has the word; or None."""
    known = program.known(value, state)
    if known is not None:
        value = number(known)
    if not isinstance(value, Form):
        return None
    _, m = word_in(wanted)
    rest = value.minus(number(wanted.constant))
    if m == 1:
        return rest
    if any(each % m for each in (rest.constant, *(each for _, each in rest.terms))):
        return None
    return form(rest.constant // m, {variable: each // m for variable, each in rest.terms})


def natural(value, program, state):
    """A form that a certificate may put for a word, as a sum of whole numbers: its constant, and the least and the greatest number; or None."""
    ranges = program.ranges(state)
    if all(signed(m) > 0 and variable in ranges for variable, m in value.terms):
        for is_exact in (False, True):
            low, high = bounds(value, ranges, is_exact)
            if 0 <= low and high < SIZE:
                return signed(value.constant) if is_exact else value.constant, (low, high)
    return None


def covers(search, old, state):
    """Whether the registers and words of one state are such as another one says, for some numbers of its words."""
    found = {}
    for new, wanted in zip(state.registers + state.words, old.registers + old.words):
        if not has_word(wanted):
            if not search.is_value(new, state, wanted):
                return False
            continue
        which, m = word_in(wanted)
        if which not in found:
            value = solved(new, wanted, search.program, state)
            found_natural = value and natural(value, search.program, state)
            if not found_natural or found_natural[1][0] < old.handed[which][0] or found_natural[1][1] > old.handed[which][1]:
                return False
            found[which] = value
        elif not search.is_value(new, state, found[which].times(m).plus(number(wanted.constant))):
            return False
    return True


def put_for(which, old, state, program):
    """The constant and the multiples of variables of the state that are put for a word of one that covers it."""
    for new, wanted in zip(state.registers + state.words, old.registers + old.words):
        if has_word(wanted) and word_in(wanted)[0] == which:
            value = solved(new, wanted, program, state)
            return natural(value, program, state)[0], value.terms
    raise AssertionError("each word is named")


def widened(ranges):
    """One range for all, of few that there are."""
    if all(each == ranges[0] for each in ranges):
        return ranges[0]
    high = max(high for _, high in ranges)
    return min(MOST_LOW, *(low for low, _ in ranges)), next(most for most in MOST if most >= high)


class Meeting:
    """Words of states that meet, and of the state that they are joined to."""

    def __init__(self, search, states):
        self.search, self.program, self.states = search, search.program, states
        # of each new word what it is in each state, its range, and how much more it is than these
        self.columns, self.ranges, self.shifts = [], [], []

    def is_asked(self, where, column):
        """Whether values that meet there are to be looked at as words."""
        return None not in column and (any(map(has_word, column)) or self.may_be_word(where))

    def may_be_word(self, where):
        return is_handed(self.program, self.states[0].pc, where)

    def spelled(self, where, column):
        """A value that all of these are, or None where there is none."""
        has_words = [has_word(value) for value in column]
        if not any(has_words):
            value = self.search.spelled(where, column, self.states)
            if value is not None and (not isinstance(value, Form) or all(kind != "n" for kind, _ in value.variables())):
                return value
        elif not all(has_words) and not self.may_be_word(where):
            return None
        times = word_in(column[0])[1] if word_in(column[0]) else 1
        for at, other in enumerate(self.columns):
            more = {value.minus(old.times(times)) if isinstance(value, Form) else None for value, old in zip(column, other)}
            if len(more) == 1 and None not in more and not (found := more.pop()).terms:
                self.narrow(at, times, found.constant, column)
                return variable_of("w", at, times, found.constant)
        return self.new(column)

    def narrow(self, at, times, more, column):
        """Takes a value that goes with a word, and is so much more, for the word, if its range is narrower: where a sum wraps, say."""
        limits = self.limits(column) if times == 1 else None
        if limits and limits[1] - limits[0] < self.ranges[at][1] - self.ranges[at][0]:
            self.ranges[at], self.shifts[at] = limits, more

    def limits(self, column):
        """A range for all of these values, or None."""
        found = [isinstance(value, Form) and natural(value, self.program, state) for value, state in zip(column, self.states)]
        return widened([limits for _, limits in found]) if all(found) else None

    def settled(self, state):
        """A state that has the new words."""
        def shifted(value):
            if not has_word(value):
                return value
            which, m = word_in(value)
            return variable_of("w", which, m, value.constant - m * self.shifts[which])

        registers, words = (tuple(map(shifted, values)) for values in (state.registers, state.words))
        return numbered(state._replace(registers=registers, words=words, handed=tuple(self.ranges)))[0]

    def new(self, column):
        """A new word, or a multiple of one, that each of these may be."""
        shapes = {(value.constant, value.terms[0][1]) if word_in(value) else None for value in column}
        if len(shapes) == 1 and None not in shapes and next(iter(shapes))[1] != 1:
            constant, m = shapes.pop()
            words = [word_in(value)[0] for value in column]
            self.add([variable_of("w", word) for word in words], widened([state.handed[word] for word, state in zip(words, self.states)]))
            return variable_of("w", len(self.ranges) - 1, m, constant)
        column = [number(known) if (known := self.program.known(value, state)) is not None else value for value, state in zip(column, self.states)]
        limits = self.limits(column)
        if not limits:
            return None
        self.add(column, limits)
        return variable_of("w", len(self.ranges) - 1)

    def add(self, column, limits):
        self.columns.append(column)
        self.ranges.append(limits)
        self.shifts.append(0)


# ---- operations and compares

def wraps_at(value, limits):
    """Up to which number of a word a word and a number more doesn't wrap, if it does for some; or None."""
    low, high = ((value.constant + limit) // SIZE for limit in limits)
    return None if low == high else (low + 1) * SIZE - value.constant - 1


def computed(op, x, y, is_immediate, state, is_kept):
    """What an operation on words makes: a number more or less, or a multiple. Where a sum wraps it is parted before, if it is kept."""
    if op in ("add", "addi", "sub"):
        if not isinstance(x, Form) or not isinstance(y, Form) or not is_immediate and not is_kept:
            return None
        found = x.minus(y) if op == "sub" else x.plus(y)
        if not has_word(found):
            return found
        if word_in(found) is None:
            return None
        which, m = word_in(found)
        if is_kept and m == 1 and (at := wraps_at(found, state.handed[which])) is not None:
            raise Split(("w", which), at)
        return found
    if op == "slli" and isinstance(x, Form) and word_in(x) and not y.terms:
        return x.times(1 << (y.constant & 31))
    return None


def split_compare(op, x, y, state):
    """Asks for the split of a word after which a compare tells more: where one side wraps, or of the numbers that a number parts."""
    is_equal, is_plain = op in ("beq", "bne"), op in ("bltu", "bgeu")
    for value, other in ((x.minus(y), number(0)),) if is_equal else ((x, y), (y, x)):
        if not has_word(value) or word_in(value) is None or word_in(value)[1] != 1:
            continue
        which, _ = word_in(value)
        low, high = state.handed[which]
        if not is_equal and (at := wraps_at(value, (low, high))) is not None:
            raise Split(("w", which), at)
        if other.terms or low == high:
            continue
        # an equal number stands alone, and 0 where signs count
        at = (other.constant - value.constant if is_equal else -value.constant) % SIZE
        if not is_plain and low <= at <= high:
            raise Split(("w", which), at if at == low else at - 1)
        more = value.constant - (value.constant + low) // SIZE * SIZE
        # of `value < other` all below the number, of `other < value` all up to it
        end = other.constant - 1 if value is x else other.constant
        if not is_equal and low + more <= end < high + more and (is_plain or high + more < SIZE // 2):
            raise Split(("w", which), end - more)
