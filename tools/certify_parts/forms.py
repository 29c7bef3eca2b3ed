"""Values as linear forms: a number and multiples of variables, modulo 2^32.

A variable is a pair: ("n", i) is the party's own count of queue i, ("p", i) that count's place in its period, ("t", i) the period's place in a turn
of the index, ("A", i) how many positions the party owns, ("w", k) a word that a tag's store may hand over (handed.py), ("z", k) any other number of
a range. A value is None (anything), a `Form`, a `Word`: what an index of a queue holds that stands for a count, or `Bits`, a word of which some bits
are known.
"""

from typing import NamedTuple

SIZE = 1 << 32


def signed(number, bits=32):
    number &= (1 << bits) - 1
    return number - (1 << bits) if number >> (bits - 1) else number


class Split(Exception):
    """The numbers of a variable are to be parted after `at`: since something changes there, or to try them one by one."""

    def __init__(self, variable, at, is_one_by_one=False):
        super().__init__(variable, at)
        self.variable, self.at, self.is_one_by_one = variable, at, is_one_by_one


class Form(NamedTuple):
    """constant + the sum of coefficient * variable, modulo 2^32."""

    constant: int
    terms: tuple = ()

    def variables(self):
        return [variable for variable, _ in self.terms]

    def times(self, factor):
        return Form(self.constant * factor % SIZE, tuple([(variable, m * factor % SIZE) for variable, m in self.terms if m * factor % SIZE]))

    def plus(self, other):
        if not other.terms or not self.terms:
            return Form((self.constant + other.constant) % SIZE, self.terms or other.terms)
        terms = dict(self.terms)
        for variable, m in other.terms:
            terms[variable] = terms.get(variable, 0) + m
        return form(self.constant + other.constant, terms)

    def minus(self, other):
        return Form((self.constant - other.constant) % SIZE) if self.terms == other.terms else self.plus(other.times(-1))

    def put(self, variable, other):
        """The form with another in the place of a variable."""
        if all(each != variable for each, _ in self.terms):
            return self
        terms = dict(self.terms)
        m = terms.pop(variable)
        return Form(self.constant, tuple(terms.items())).plus(other.times(m))


class Word(NamedTuple):
    """What an index of queue `queue` holds that stands for this count, an exact form, or what a signed load leaves of it. Of no queue, and no
    number either: so many bits of what `xor` leaves of two numbers, which are 0 where those of their difference are, the form."""

    queue: int
    count: Form
    is_signed: bool = False
    bits: int = 0

    @property
    def terms(self):
        return self.count.terms

    def variables(self):
        return self.count.variables()


class Bits(NamedTuple):
    """A word of which the bits under a mask are these. It names no variable."""

    mask: int
    bits: int

    terms = ()

    @staticmethod
    def variables():
        return []


def changed(value, change):
    """A value with its form changed, of a word that of the count."""
    if value is None or isinstance(value, Bits):
        return value
    return value._replace(count=change(value.count)) if isinstance(value, Word) else change(value)


def form(constant, terms=None):
    return Form(constant % SIZE, tuple(sorted([(variable, m % SIZE) for variable, m in terms.items() if m % SIZE])) if terms else ())


def number(constant):
    return Form(constant % SIZE)


def variable_of(kind, which, factor=1, constant=0):
    factor %= SIZE
    return Form(constant % SIZE, (((kind, which), factor),) if factor else ())


def has_word(value):
    """Whether a value has a variable for a word that is handed over."""
    return isinstance(value, Form) and any(kind == "w" for (kind, _), _ in value.terms)


def bounds(value, ranges, is_exact=False):
    """The least and the greatest number of a form, if each variable has a range; else None. The numbers are those of a sum
    of whole numbers, where a factor from 2^31 on counts as negative, and of an exact form its constant too."""
    low = high = signed(value.constant) if is_exact else value.constant
    for variable, m in value.terms:
        if variable not in ranges:
            return None
        first, last = ranges[variable]
        m = signed(m)
        low, high = low + min(m * first, m * last), high + max(m * first, m * last)
    return low, high


def numbers_of(value, ranges):
    """`bounds` as numbers below 2^32, or None where the form wraps within them."""
    found = bounds(value, ranges)
    if found is None or found[0] // SIZE != found[1] // SIZE:
        return None
    return found[0] % SIZE, found[1] % SIZE
