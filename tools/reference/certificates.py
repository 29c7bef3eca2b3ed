"""Certificates of queues: when one is accepted for a text. Definition by definition, and by the same names, what crates/queue_certificates/specs
defines, so that the two can be read side by side: Forms, States, Results, Steps and Certificates in this order; sent.py has Fields, Effects and
Filled, and tags.py has Tags. Numbers have no limit. Nothing here searches; docs/queues.md has what a certificate says, and certificate_lines.py reads its text.

A list is a tuple, `None` is no number, and what the definitions take from a module around them (the queues, the hart) comes first, or as `self`.
"""

from functools import cache
from typing import NamedTuple

import sent
import tags
import words

M32 = 1 << 32


def monus(a, b):
    return a - b if a > b else 0


def div(a, n):
    return a // n if n else 0


def mod(a, n):
    return a % n if n else a


def get_or(values, at, other):
    return values[at] if at < len(values) else other


def put_at(values, at, value):
    return (*values[:at], value, *values[at + 1:]) if at < len(values) else values


# ---- Forms

class Form(NamedTuple):
    """A constant, and of each variable how often it is taken."""

    constant: int
    factors: tuple


class Bounds(NamedTuple):
    low: int
    high: int


def dot(factors, numbers):
    return sum(m * x for m, x in zip(factors, numbers))


def form_value(f, numbers):
    return f.constant + dot(f.factors, numbers)


def number(n):
    return Form(n, ())


FIRST_VARIABLE = Form(0, (1,))


def sums(ms, ns):
    if len(ns) > len(ms):
        ms, ns = ns, ms
    return (*(m + n for m, n in zip(ms, ns)), *ms[len(ns):])


def plus(f, g):
    return Form(f.constant + g.constant, sums(f.factors, g.factors))


def times(n, f):
    return Form(n * f.constant, tuple(n * m for m in f.factors))


def lifted(f):
    return Form(f.constant, (0, *f.factors))


def combined(ms, forms):
    found = number(0)
    for m, g in zip(ms, forms):
        if m:
            found = plus(found, times(m, g))
    return found


def substituted(f, forms):
    return plus(number(f.constant), combined(f.factors, forms)) if f.factors else f


def differences(ms, ns):
    return (*(monus(m, n) for m, n in zip(ms, ns)), *ms[len(ns):])


def minus(f, g):
    return Form(monus(f.constant, g.constant), differences(f.factors, g.factors))


def factor_at(ms, j):
    return get_or(ms, j, 0)


def raised(j, by, f):
    return Form(f.constant + factor_at(f.factors, j) * by, f.factors)


def vanishes(n, ms):
    return all(mod(m, n) == 0 for m in ms)


def agree(n, ms, ks):
    both = min(len(ms), len(ks))
    return all(mod(m, n) == mod(k, n) for m, k in zip(ms, ks)) and vanishes(n, ms[both:]) and vanishes(n, ks[both:])


def is_same(n, f, g):
    return mod(f.constant, n) == mod(g.constant, n) and agree(n, f.factors, g.factors)


def most_of_multiple(r, m):
    if r is None:
        return 0 if m == 0 else None
    return m * r


def added(a, b):
    return None if a is None or b is None else a + b


def most_of_sum(ranges, ms):
    total = 0
    for r, m in zip(ranges, ms):
        total = added(total, most_of_multiple(r, m))
    return total


def most(ranges, f):
    return added(f.constant, most_of_sum(ranges, f.factors))


def fits_in(b, r):
    return r is None or b is not None and b <= r


def are_in(ranges, forms, targets):
    return len(forms) == len(targets) and all(fits_in(most(ranges, g), t) for g, t in zip(forms, targets))


def is_none(r):
    return r == 0


def kept(ranges, ms):
    """As long as the ranges: a factor of a variable that there isn't stays, as `dot` sees none."""
    return (*(0 if is_none(r) else m for r, m in zip(ranges, ms)), *ms[len(ranges):])


def settled(ranges, f):
    return Form(f.constant, kept(ranges, f.factors))


def reduced(n, f):
    return Form(mod(f.constant, n), tuple(mod(m, n) for m in f.factors))


def remainder(ranges, f, n):
    return reduced(n, f) if n >= 1 and fits_in(most(ranges, reduced(n, f)), n - 1) else None


def risings(n, ms):
    return tuple(0 if monus(n, mod(m, n)) <= mod(m, n) else mod(m, n) for m in ms)


def fallings(n, ms):
    return tuple(monus(n, mod(m, n)) if monus(n, mod(m, n)) <= mod(m, n) else 0 for m in ms)


def bounds_between(n, c, up, down):
    if up is None or down is None or down > c or c + up + 1 > n:
        return None
    return Bounds(c - down, c + up)


def bounds_of(n, ranges, f):
    return bounds_between(n, mod(f.constant, n), most_of_sum(ranges, risings(n, f.factors)), most_of_sum(ranges, fallings(n, f.factors)))


def balanced(n, ms):
    return tuple(M32 - monus(n, mod(m, n)) if monus(n, mod(m, n)) <= mod(m, n) else mod(m, n) for m in ms)


def where_bounded(b, f):
    return None if b is None else f


def remainder_word(ranges, f, n):
    rest = remainder(ranges, f, n)
    return where_bounded(bounds_of(n, ranges, f), Form(mod(f.constant, n), balanced(n, f.factors))) if rest is None else rest


# ---- States

class Linear(NamedTuple):
    """The remainder of a form by 2^32."""

    form: Form


class IndexFor(NamedTuple):
    """The word of a queue that stands for the count that a form is."""

    queue: int
    form: Form


class SignedFor(NamedTuple):
    """What a signed load leaves of the word of a queue that stands for the count that a form is."""

    queue: int
    form: Form


class EndsAs(NamedTuple):
    """A number of so many bits that ends in as many zeros as a form, and is 0 where all these bits of the form are."""

    bits: int
    form: Form


class HasBits(NamedTuple):
    """A word of which the bits under a mask are these."""

    mask: int
    bits: int


ANY = None


class OwnWord(NamedTuple):
    """Where it lies and how many bytes it has, which no other hart writes."""

    at: int
    width: int


class Share(NamedTuple):
    own: Form
    owned: Form


NO_SHARE = Share(number(0), number(0))


class KnownState(NamedTuple):
    pc: int
    ranges: tuple
    registers: tuple
    words: tuple
    shares: tuple


class Queue(NamedTuple):
    sender: int
    receiver: int
    head: int
    tail: int
    index_width: int
    slots: int
    size: int
    width: int
    capacity: int
    base: int
    scale: int
    offset: int
    modulus: int

    def index_word(self, n):
        return self.base + self.scale * mod(n + self.offset, self.modulus)


NO_QUEUE = Queue(*[0] * 13)
SENDER, RECEIVER = "sender", "receiver"


def queue_at(queues, i):
    return get_or(queues, i, NO_QUEUE)


def other(party):
    return RECEIVER if party == SENDER else SENDER


def itself(party):
    return party


def party_of(q, h):
    return SENDER if h == q.sender else RECEIVER if h == q.receiver else None


def index(q, party):
    return q.head if party == SENDER else q.tail


def value_by(t, v):
    return v if v is ANY or isinstance(v, HasBits) else v._replace(form=t(v.form))


def share_by(t, s):
    return Share(t(s.own), t(s.owned))


def state_by(t, ranges, s):
    return KnownState(s.pc, ranges, tuple(value_by(t, v) for v in s.registers), tuple(value_by(t, v) for v in s.words),
                      tuple(share_by(t, share) for share in s.shares))


def signed_word(width, x):
    """The number as two's complement of so many bytes, as a word."""
    bytes_have = 1 << 8 * width
    return x if 2 * x < bytes_have else x + monus(M32, bytes_have)


def scaled(q, f):
    return plus(number(q.base), times(q.scale, f))


def of_remainder(ranges, q, i, f, g):
    if g is None:
        return Linear(scaled(q, plus(f, number(q.offset)))) if q.scale * q.modulus == M32 and q.base < q.scale else IndexFor(i, f)
    return Linear(scaled(q, g)) if fits_in(most(ranges, scaled(q, g)), M32 - 1) else IndexFor(i, f)


def plain(queues, ranges, v):
    if not isinstance(v, IndexFor):
        return v
    q = queue_at(queues, v.queue)
    return of_remainder(ranges, q, v.queue, v.form, remainder(ranges, plus(v.form, number(q.offset)), q.modulus))


def is_within_plain(queues, v, w):
    if w is ANY:
        return True
    if isinstance(v, Linear) and isinstance(w, Linear):
        return is_same(M32, v.form, w.form)
    if isinstance(v, (IndexFor, SignedFor)) and type(v) is type(w):
        return v.queue == w.queue and is_same(queue_at(queues, v.queue).modulus, v.form, w.form)
    if isinstance(v, EndsAs) and isinstance(w, EndsAs):
        return v.bits == w.bits <= 32 and is_same(1 << v.bits, v.form, w.form)
    if isinstance(v, HasBits) and isinstance(w, HasBits):
        return v.mask & w.mask == w.mask and v.bits & w.mask == w.bits
    return False


def is_within(queues, ranges, v, w):
    return is_within_plain(queues, plain(queues, ranges, v), plain(queues, ranges, w))


# ---- Results

class Result(NamedTuple):
    """A value over one variable more, the first, which is at most so much."""

    most: int
    value: object


def just(v):
    return Result(0, value_by(lifted, v))


def exactly(n):
    return just(Linear(number(n)) if n < M32 else ANY)


def any_up_to(n):
    return Result(n, Linear(FIRST_VARIABLE)) if n < M32 else just(ANY)


def or_up_to(n, v):
    return any_up_to(n) if v is ANY else just(v)


def as_number(v):
    return v.form.constant % M32 if isinstance(v, Linear) and vanishes(M32, v.form.factors) else None


def or_else(n, result):
    return result if n is None else exactly(n)


def is_below(a, b):
    if a is None or b is None:
        return None
    return True if a.high < b.low else False if b.high <= a.low else None


def is_below_signed(a, b):
    if a is None or b is None or a.high >= 1 << 31 or b.high >= 1 << 31:
        return None
    return is_below(a, b)


def is_nothing(b):
    if b is None:
        return None
    return False if b.low > 0 else True if b.high == 0 else None


def bounds_by(bits, nothing):
    return None if nothing is None else Bounds(0, 0) if nothing else Bounds(1, (1 << bits) - 1)


def negated(answer):
    return None if answer is None else not answer


def flag_of(answer):
    return any_up_to(1) if answer is None else exactly(int(answer))


def set_less(b, n):
    return flag_of(is_below_signed(b, Bounds(n, n))) if 0 <= n < 1 << 31 else any_up_to(1)


def shifted_right(b, amount):
    return just(ANY) if b is None else any_up_to(b.high >> amount)


def sum_of(v, w):
    return Linear(plus(v.form, w.form)) if isinstance(v, Linear) and isinstance(w, Linear) else ANY


def xor_of(v, w):
    """Two numbers agree in their lowest bits where their `xor` is 0 in these, and where their difference is."""
    return EndsAs(32, plus(v.form, times(M32 - 1, w.form))) if isinstance(v, Linear) and isinstance(w, Linear) else ANY


def of_bits(mask, bits):
    """A number is a word of which all bits are known."""
    return Linear(number(bits)) if mask == M32 - 1 else HasBits(mask, bits)


def bits_of(v):
    """What bits are known of a value, where it is a word."""
    if isinstance(v, HasBits):
        return v
    if not isinstance(v, Linear):
        return None
    n = as_number(v)
    return HasBits(0, 0) if n is None else HasBits(M32 - 1, n)


def or_of(v, w):
    a, b = bits_of(v), bits_of(w)
    return ANY if a is None or b is None else of_bits(a.mask & b.mask | a.bits | b.bits, a.bits | b.bits)


def turned(v, mask):
    if not isinstance(v, Linear):
        return just(ANY)
    return just(Linear(plus(number(M32 - 1), times(M32 - 1, v.form))) if mask == M32 - 1 else ANY)


class Rest(NamedTuple):
    """A number by its remainder: it is a form's remainder by `by`, which divides 2^32."""

    by: int
    form: Form


def rest_of(queues, v):
    if v is ANY or isinstance(v, (EndsAs, HasBits)):
        return None
    if isinstance(v, Linear):
        return Rest(M32, v.form)
    q = queue_at(queues, v.queue)
    by = q.scale * q.modulus
    divides = mod(M32, by) == 0 and (isinstance(v, IndexFor) or mod(256 ** q.index_width, by) == 0)
    return Rest(by, scaled(q, plus(v.form, number(q.offset)))) if divides else None


def negative(r):
    return None if r is None else Rest(r.by, times(M32 - 1, r.form))


def rests_added(a, b):
    if a is None or b is None:
        return None
    if mod(a.by, b.by) == 0:
        return Rest(b.by, plus(a.form, b.form))
    return Rest(a.by, plus(a.form, b.form)) if mod(b.by, a.by) == 0 else None


def result_by(t, result):
    return Result(result.most, value_by(t, result.value))


def of_rest(r):
    return just(ANY) if r is None else Result(monus(div(M32, r.by), 1), Linear(plus(lifted(r.form), times(r.by, FIRST_VARIABLE))))


def bounds(ranges, v):
    if isinstance(v, EndsAs) and 1 <= v.bits <= 32:
        return bounds_by(v.bits, is_nothing(bounds_of(1 << v.bits, ranges, v.form)))
    return bounds_of(M32, ranges, v.form) if isinstance(v, Linear) else None


def is_zero(ranges, v, n):
    """Whether a value is this number, where that is 0."""
    return is_nothing(bounds(ranges, v)) if n == 0 else None


def agrees(ranges, n, f, g):
    return is_nothing(bounds_of(n, ranges, plus(f, times(monus(n, 1), g))))


def shifted_left(queues, v, amount):
    if isinstance(v, Linear):
        return just(Linear(times(1 << amount, v.form)))
    if isinstance(v, HasBits):
        return just(of_bits((v.mask << amount) % M32 | (1 << amount) - 1, (v.bits << amount) % M32))
    return result_by(lambda f: times(1 << amount, f), of_rest(rest_of(queues, v)))


def is_count(q, n):
    return q.base == 0 and q.scale == 1 and q.modulus == n


def counting(queues, n):
    return next((i for i in reversed(range(len(queues))) if is_count(queues[i], n)), None)


def counted(queues, n, f, i, otherwise):
    return otherwise if i is None else just(IndexFor(i, plus(f, number(n - mod(queues[i].offset, n)))))


def remaining(queues, ranges, n, f, otherwise):
    rest = remainder_word(ranges, f, n)
    if rest is not None:
        return just(Linear(rest))
    return counted(queues, n, f, counting(queues, n), otherwise) if most(ranges, f) is None else otherwise


def multiple_or(n, f, otherwise):
    return otherwise if f is None else just(Linear(times(n, f)))


def lowest(mask):
    """The lowest bit of a mask of 32 bits; the one past them, if it has none."""
    return mask & -mask or M32


def masked_row(ranges, r, mask, low):
    count, part = 1 << mask.bit_count(), without(low, r.form)
    if mask + low == low * count and mod(r.by, mask + low) == 0 and is_same(0, r.form, times(low, part)):
        return multiple_or(low, remainder_word(ranges, part, count), any_up_to(mask))
    return any_up_to(mask)


def masked(queues, ranges, r, mask):
    if r is None:
        return any_up_to(mask)
    if mask + 1 == 1 << mask.bit_count() and mod(r.by, mask + 1) == 0:
        return remaining(queues, ranges, mask + 1, r.form, any_up_to(mask))
    return masked_row(ranges, r, mask, lowest(mask))


def masked_by(queues, ranges, r, mask, otherwise):
    return otherwise if mask is None else masked(queues, ranges, r, mask)


def kept_bits(m, b, mask, otherwise):
    """Bits that a mask keeps of known ones, and 0 beside it. Few enough low bits for the number of a slot, of which none is known, are the other."""
    is_low = mask <= 65535 and mask + 1 == 1 << mask.bit_count()
    return otherwise if is_low and m & mask == 0 else just(of_bits(m | mask ^ M32 - 1, b & mask))


def ending_in(v, mask, otherwise):
    if isinstance(v, HasBits):
        return kept_bits(*v, mask, otherwise)
    count = mask.bit_count()
    return just(EndsAs(count, v.form)) if isinstance(v, EndsAs) and mask + 1 == 1 << count and count <= v.bits else otherwise


def ending_by(v, mask, otherwise):
    return otherwise if mask is None else ending_in(v, mask, otherwise)


def signed(n):
    return n - M32 if n >= 1 << 31 else n


# what `with_immediate`, `shifted` and `computed` make of two numbers below 2^32
COMPUTED = {
    "add": lambda a, b: (a + b) % M32, "sub": lambda a, b: (a - b) % M32, "sll": lambda a, b: (a << b % 32) % M32,
    "slt": lambda a, b: int(signed(a) < signed(b)), "sltu": lambda a, b: int(a < b), "xor": lambda a, b: a ^ b,
    "srl": lambda a, b: a >> b % 32, "sra": lambda a, b: (signed(a) >> b % 32) % M32, "or": lambda a, b: a | b, "and": lambda a, b: a & b}
TAKEN = {"beq": lambda a, b: a == b, "bne": lambda a, b: a != b, "blt": lambda a, b: signed(a) < signed(b),
         "bge": lambda a, b: signed(a) >= signed(b), "bltu": lambda a, b: a < b, "bgeu": lambda a, b: a >= b}


def immediate_part(queues, ranges, op, v, n):
    if op == "addi":
        return of_rest(rests_added(rest_of(queues, v), Rest(M32, number(n % M32))))
    if op == "andi":
        return ending_in(v, n % M32, masked(queues, ranges, rest_of(queues, v), n % M32))
    if op == "xori":
        return turned(v, n % M32)
    if op == "ori":
        return just(or_of(v, Linear(number(n % M32))))
    if op == "slti":
        return set_less(bounds(ranges, v), n)
    if op == "sltiu":
        return flag_of(is_below(bounds(ranges, v), bounds(ranges, Linear(number(n % M32)))))
    return just(ANY)


def of_immediate(queues, ranges, op, v, n):
    a = as_number(v)
    return or_else(None if a is None else COMPUTED["sltu" if op == "sltiu" else op[:-1]](a, n % M32), immediate_part(queues, ranges, op, v, n))


def without(n, f):
    return Form(div(f.constant, n), tuple(div(m, n) for m in f.factors))


def shifted_back(queues, ranges, v, amount):
    if isinstance(v, HasBits):
        return just(of_bits(v.mask >> amount | M32 - (1 << 32 - amount), v.bits >> amount))
    if not isinstance(v, Linear):
        return just(ANY)
    f, b = v.form, bounds_of(M32, ranges, v.form)
    if amount <= 32 and is_same(0, f, times(1 << amount, without(1 << amount, f))):
        return remaining(queues, ranges, 1 << 32 - amount, without(1 << amount, f), shifted_right(b, amount))
    return shifted_right(b, amount)


def shifted_with_sign(v, amount):
    """Where the highest bit is known, so are the bits that it fills."""
    return just(of_bits(COMPUTED["sra"](v.mask, amount), COMPUTED["sra"](v.bits, amount)) if isinstance(v, HasBits) else ANY)


def shift_part(queues, ranges, op, v, amount):
    if op == "slli":
        return shifted_left(queues, v, amount)
    if op == "srli":
        return shifted_back(queues, ranges, v, amount)
    return shifted_with_sign(v, amount)


def of_shift(queues, ranges, op, v, amount):
    a = as_number(v)
    return or_else(None if a is None else COMPUTED[op[:-1]](a, amount), shift_part(queues, ranges, op, v, amount))


def register_part(queues, ranges, op, v, w):
    if op == "add":
        return of_rest(rests_added(rest_of(queues, v), rest_of(queues, w)))
    if op == "sub":
        return of_rest(rests_added(rest_of(queues, v), negative(rest_of(queues, w))))
    if op == "slt":
        return flag_of(is_below_signed(bounds(ranges, v), bounds(ranges, w)))
    if op == "sltu":
        return flag_of(is_below(bounds(ranges, v), bounds(ranges, w)))
    if op == "xor":
        return just(xor_of(v, w))
    if op == "or":
        return just(or_of(v, w))
    if op == "and":
        either = masked_by(queues, ranges, rest_of(queues, v), as_number(w), masked_by(queues, ranges, rest_of(queues, w), as_number(v), just(ANY)))
        return ending_by(v, as_number(w), ending_by(w, as_number(v), either))
    return just(ANY)


def of_registers(queues, ranges, op, v, w):
    a, b = as_number(v), as_number(w)
    return or_else(None if a is None or b is None else COMPUTED[op](a, b), register_part(queues, ranges, op, v, w))


def unscaled(q, f):
    return Form(div(monus(f.constant % M32, q.base), q.scale), tuple(div(m % M32, q.scale) for m in f.factors))


def is_scaled(ranges, q, f, k):
    return is_same(M32, f, scaled(q, k)) and fits_in(most(ranges, scaled(q, k)), M32 - 1) and fits_in(most(ranges, k), monus(q.modulus, 1))


def standing(queues, ranges, i, v):
    q = queue_at(queues, i)
    if isinstance(v, Linear):
        return unscaled(q, v.form) if is_scaled(ranges, q, v.form, unscaled(q, v.form)) else None
    return plus(v.form, number(q.offset)) if isinstance(v, IndexFor) and v.queue == i else None


def both_agree(ranges, n, j, k):
    return None if j is None or k is None else agrees(ranges, n, j, k)


def is_equal_word(queues, ranges, i, v, w):
    q = queue_at(queues, i)
    return both_agree(ranges, q.modulus, standing(queues, ranges, i, v), standing(queues, ranges, i, w)) if q.scale >= 1 else None


def sign_or(v, n, otherwise):
    """A word is negative where its highest bit is 1: whether it is below a number that is 0, or the other."""
    return bool(v.bits & 1 << 31) if isinstance(v, HasBits) and n == 0 and v.mask & 1 << 31 else otherwise


def is_less(ranges, v, w):
    return sign_or(v, as_number(w), is_below_signed(bounds(ranges, v), bounds(ranges, w)))


def is_equal(queues, ranges, v, w):
    if isinstance(v, HasBits) or isinstance(w, HasBits) and not isinstance(v, EndsAs):
        return None
    if isinstance(v, EndsAs):
        return is_zero(ranges, v, as_number(w))
    if isinstance(v, Linear) and isinstance(w, EndsAs):
        return is_zero(ranges, w, as_number(v))
    if isinstance(v, IndexFor):
        return is_equal_word(queues, ranges, v.queue, v, w)
    if isinstance(v, SignedFor) and isinstance(w, SignedFor) and queue_at(queues, v.queue).index_width == queue_at(queues, w.queue).index_width:
        return is_equal_word(queues, ranges, v.queue, IndexFor(*v), IndexFor(*w))
    if not isinstance(v, Linear) or w is ANY or isinstance(w, SignedFor):
        return None
    return is_equal_word(queues, ranges, w.queue, v, w) if isinstance(w, IndexFor) else agrees(ranges, M32, v.form, w.form)


def branch_part(queues, ranges, op, v, w):
    if op == "beq":
        return is_equal(queues, ranges, v, w)
    if op == "bne":
        return negated(is_equal(queues, ranges, v, w))
    if op == "blt":
        return is_less(ranges, v, w)
    if op == "bge":
        return negated(is_less(ranges, v, w))
    if op == "bltu":
        return is_below(bounds(ranges, v), bounds(ranges, w))
    return negated(is_below(bounds(ranges, v), bounds(ranges, w)))


def is_branch_taken(queues, ranges, op, v, w):
    a, b = as_number(v), as_number(w)
    return branch_part(queues, ranges, op, v, w) if a is None or b is None else TAKEN[op](a, b)


# ---- Steps

LOADS = {"lb": 1, "lh": 2, "lw": 4, "lbu": 1, "lhu": 2}
STORES = {"sb": 1, "sh": 2, "sw": 4}
WORD = 4
IMMEDIATES = ("addi", "slti", "sltiu", "xori", "ori", "andi")
SHIFTS = ("slli", "srli", "srai")


def all_below(n, f):
    return all(f(at) for at in range(n))


def last_below(n, f):
    return next((at for at in reversed(range(n)) if f(at)), None)


def is_apart(b, width, a, count):
    return b.high + width <= a or a + count <= b.low


def is_off(q, b, width):
    return is_apart(b, width, q.head, q.index_width) and is_apart(b, width, q.tail, q.index_width) and is_apart(b, width, q.slots, q.size * q.width)


def position_at(q, own, a):
    return mod(div(monus(a % M32, q.slots), q.width) + monus(q.size, mod(own, q.size)), q.size)


def offset_at(q, a):
    return mod(monus(a % M32, q.slots), q.width)


def is_slot(ranges, q, f, offset, g):
    if g is None:
        return False
    place = plus(times(q.width, g), number(q.slots + offset))
    return is_same(M32, f, place) and fits_in(most(ranges, place), M32 - 1)


def is_owned(ranges, q, s, v, width):
    if not isinstance(v, Linear):
        return False
    position, offset = position_at(q, s.own.constant, v.form.constant), offset_at(q, v.form.constant)
    return position < s.owned.constant and offset + width <= q.width \
        and is_slot(ranges, q, v.form, offset, remainder(ranges, plus(s.own, number(position)), q.size))


def behind(q, party):
    return monus(q.modulus, mod(q.capacity, q.modulus)) if party == SENDER else 0


def is_cut(q, v, f):
    return isinstance(v, Linear) and q.scale * q.modulus == 256 ** q.index_width and q.base < q.scale \
        and is_same(256 ** q.index_width, v.form, scaled(q, plus(f, number(q.offset))))


def anywhere(b):
    return Bounds(0, M32 - 1) if b is None else b


def is_one(b):
    return b.low == b.high


def is_whole(q, party, t, a, width):
    return party is not None and a == index(q, t(party)) and width == q.index_width


def misses(q, party, b, width):
    return party is None or b.high < index(q, other(party)) or index(q, other(party)) < b.low or width != q.index_width


def back_of(q, party):
    return 0 if party is None else behind(q, party)


def owned_then(s):
    return plus(number(s.owned.constant), FIRST_VARIABLE)


def looked_share(s):
    return Share(lifted(s.own), owned_then(s))


def moved_share(s, d):
    return Share(plus(s.own, d), minus(s.owned, d))


def with_register(values, n, v):
    return values if n == 0 else put_at(values, n, v)


def with_result(k, rd, pc, result):
    after = state_by(lifted, (result.most, *k.ranges), k)
    return after._replace(pc=pc, registers=with_register(after.registers, rd, result.value))


def going_to(k, pc):
    return state_by(lifted, (0, *k.ranges), k)._replace(pc=pc)


def next_pc(pc):
    return (pc + 4) % M32


def address(base, offset):
    return (base + offset) % M32


def goes_by(taken, passed, target, following, answer):
    if answer is None:
        return [going_to(taken, target), going_to(passed, following)]
    return [going_to(taken, target) if answer else going_to(passed, following)]


def shared(k, rs1, rs2, v, w):
    if v is ANY:
        return k._replace(registers=with_register(k.registers, rs1, w))
    return k._replace(registers=with_register(k.registers, rs2, v)) if w is ANY else k


def with_equal(k, rs1, rs2):
    return shared(k, rs1, rs2, register_at(k, rs1), register_at(k, rs2))


def when_taken(k, op, rs1, rs2):
    return with_equal(k, rs1, rs2) if op == "beq" else k


def when_passed(k, op, rs1, rs2):
    return with_equal(k, rs1, rs2) if op == "bne" else k


def jumping(k, rd, offset, a):
    return None if a is None else [with_result(k, rd, address(a, offset) // 2 * 2, exactly(next_pc(k.pc)))]


def called(k):
    after = going_to(k, next_pc(k.pc))
    return after._replace(registers=with_register(with_register(after.registers, 10, ANY), 11, ANY))


def register_at(k, n):
    return Linear(number(0)) if n == 0 else get_or(k.registers, n, ANY)


@cache
def meaning(word):
    """The instruction of a word as reference/words.py reads it, or None."""
    found = words.decoded(word)
    return found and found[0]


def instruction_at(code, pc):
    return meaning(code[pc // 4]) if pc < 4 * len(code) else None


def is_copy(op, n):
    return op == "addi" and n == 0


def without_sign(i, v):
    """Queue i's word, where what is known is what a signed load leaves of it: both have the same low bytes, as many as the index has."""
    return IndexFor(*v) if isinstance(v, SignedFor) and v.queue == i else v


def most_loaded(op):
    return {"lbu": 255, "lhu": 65535}.get(op, M32 - 1)


class Steps:
    """Of hart h, where the harts have these own words."""

    def __init__(self, queues, own_of, h):
        self.queues, self.own_of, self.h, self.own = queues, own_of, h, get_or(own_of, h, ())
        self.parties = [party_of(q, h) for q in queues]

    def operand(self, k, n):
        return plain(self.queues, k.ranges, register_at(k, n))

    def address_value(self, k, n, offset):
        return sum_of(self.operand(k, n), Linear(number(offset % M32)))

    def addresses(self, k, n, offset):
        return anywhere(bounds(k.ranges, self.address_value(k, n, offset)))

    def storable(self, v):
        return ANY if isinstance(v, (IndexFor, SignedFor)) and v.queue >= len(self.queues) or isinstance(v, EndsAs) else v

    def immediate_result(self, k, op, v, n):
        return just(self.storable(v)) if is_copy(op, n) else of_immediate(self.queues, k.ranges, op, v, n)

    # loads

    def is_look(self, b, width, i):
        return is_one(b) and is_whole(self.queues[i], self.parties[i], other, b.low, width)

    def is_own_index(self, b, width, i):
        return is_one(b) and is_whole(self.queues[i], self.parties[i], itself, b.low, width)

    def is_own_word(self, b, width, j):
        return is_one(b) and b.low == self.own[j].at and width == self.own[j].width

    @staticmethod
    def share_at(k, i):
        return get_or(k.shares, i, NO_SHARE)

    @staticmethod
    def word_loaded(k, j):
        return ANY if j is None else get_or(k.words, j, ANY)

    def index_loaded(self, k, i, v):
        return v if i is None else IndexFor(i, self.share_at(k, i).own)

    def value_loaded(self, k, b, width):
        own = last_below(len(self.queues), lambda i: self.is_own_index(b, width, i))
        return self.index_loaded(k, own, self.word_loaded(k, last_below(len(self.own), lambda j: self.is_own_word(b, width, j))))

    def is_index_below(self, limit, v):
        if not isinstance(v, IndexFor):
            return False
        q = queue_at(self.queues, v.queue)
        return q.modulus >= 1 and q.base + q.scale * (q.modulus - 1) < limit

    def signed_value(self, width, v):
        return SignedFor(*v) if isinstance(v, IndexFor) and queue_at(self.queues, v.queue).index_width == width else ANY

    def extended_value(self, op, v):
        if op in ("lb", "lh"):
            return v if self.is_index_below(1 << 8 * LOADS[op] - 1, v) else self.signed_value(LOADS[op], v)
        return v

    @staticmethod
    def keeps_value(ranges, op, v):
        """Whether a signed load leaves a number as it is, since its highest bit is surely 0."""
        return op in ("lb", "lh") and isinstance(v, Linear) and fits_in(most(ranges, v.form), (1 << 8 * LOADS[op] - 1) - 1)

    def loaded(self, ranges, op, v):
        return or_up_to(most_loaded(op), v if self.keeps_value(ranges, op, v) else self.extended_value(op, v))

    def looked_word(self, i, s):
        return IndexFor(i, plus(plus(lifted(s.own), owned_then(s)), number(back_of(self.queues[i], self.parties[i]))))

    def after_look(self, k, op, rd, i, s):
        after = with_result(k, rd, next_pc(k.pc), Result(monus(self.queues[i].capacity, s.owned.constant), self.extended_value(op, self.looked_word(i, s))))
        return after._replace(shares=put_at(after.shares, i, looked_share(s)))

    def after_load(self, k, op, rd, b, look):
        if look is None:
            return with_result(k, rd, next_pc(k.pc), self.loaded(k.ranges, op, self.value_loaded(k, b, LOADS[op])))
        return self.after_look(k, op, rd, look, self.share_at(k, look))

    def may_load(self, k, b, width, look):
        return all_below(len(self.queues), lambda i: look == i and i < len(k.shares) or misses(self.queues[i], self.parties[i], b, width))

    def loading(self, k, op, rd, b):
        look = last_below(len(self.queues), lambda i: self.is_look(b, LOADS[op], i))
        return [self.after_load(k, op, rd, b, look)] if self.may_load(k, b, LOADS[op], look) else None

    # stores

    def may_move(self, k, d, v, i, s):
        return (is_within(self.queues, k.ranges, without_sign(i, v), IndexFor(i, plus(s.own, d))) or is_cut(self.queues[i], v, plus(s.own, d))) \
            and is_same(0, plus(d, minus(s.owned, d)), s.owned) \
            and fits_in(most(k.ranges, d), monus(self.queues[i].modulus, 1)) and i < len(k.shares)

    def may_fill(self, k, party, place, width, i):
        return party is not None and is_owned(k.ranges, self.queues[i], self.share_at(k, i), place, width)

    def may_store(self, k, d, v, place, b, width, move, i):
        if move == i:
            return self.may_move(k, d, v, i, self.share_at(k, i))
        return is_off(self.queues[i], b, width) or self.may_fill(k, self.parties[i], place, width, i)

    def leaves_words(self, b, width, g):
        return g == self.h or all(is_apart(b, width, *o) for o in self.own_of[g])

    def low_form(self, n, f):
        """What is known of a form's remainder by n: the form that it is, or the word of an index that counts on in n words."""
        i = counting(self.queues, n)
        return ANY if i is None else IndexFor(i, plus(f, number(n - mod(self.queues[i].offset, n))))

    def low_bytes(self, ranges, width, v):
        """What is known of the lowest bytes of a value."""
        every = 256 ** width
        if isinstance(v, Linear):
            rest = remainder_word(ranges, v.form, every)
            return self.low_form(every, v.form) if rest is None else Linear(rest)
        if isinstance(v, IndexFor):
            return v if v.queue < len(self.queues) and self.queues[v.queue].index_width <= width else ANY
        if isinstance(v, SignedFor):
            return IndexFor(*v) if v.queue < len(self.queues) and self.queues[v.queue].index_width == width else ANY
        return HasBits(v.mask | every - 1 ^ M32 - 1, v.bits & every - 1) if isinstance(v, HasBits) else ANY

    def stored_value(self, ranges, width, v):
        """What is known of the number that a store of `width` bytes leaves of a value."""
        return self.storable(v) if width == WORD else self.low_bytes(ranges, width, plain(self.queues, ranges, v))

    def word_then(self, ranges, b, width, v, o, w):
        if is_apart(b, width, *o):
            return w
        return self.stored_value(ranges, width, v) if is_one(b) and b.low == o.at and width == o.width else ANY

    def words_then(self, ranges, b, width, v, own, known):
        return (*(self.word_then(ranges, b, width, v, o, w) for o, w in zip(own, known)), *(known[len(own):]))

    @staticmethod
    def shares_moved(shares, d, move):
        return shares if move is None else put_at(shares, move, moved_share(get_or(shares, move, NO_SHARE), d))

    def stored(self, k, d, width, v, b, move):
        return k._replace(words=self.words_then(k.ranges, b, width, v, self.own, k.words), shares=self.shares_moved(k.shares, d, move))

    def after_store(self, k, d, width, v, b, move):
        return going_to(self.stored(k, d, width, v, b, move), next_pc(k.pc))

    def may_be_stored(self, k, d, width, v, place, b, move):
        return all_below(len(self.queues), lambda i: self.may_store(k, d, v, place, b, width, move, i)) \
            and all_below(len(self.own_of), lambda g: self.leaves_words(b, width, g))

    def storing(self, k, d, width, v, place, b):
        move = last_below(len(self.queues), lambda i: self.is_own_index(b, width, i))
        return [self.after_store(k, d, width, v, b, move)] if self.may_be_stored(k, d, width, v, place, b, move) else None

    # AMOs

    def updated_value(self, ranges, op, old, new):
        if op == "amoswap":
            return new
        return sum_of(plain(self.queues, ranges, old), plain(self.queues, ranges, new)) if op == "amoadd" else ANY

    def after_exchange(self, k, d, rd, v, b, move):
        return with_result(self.stored(k, d, 4, v, b, move), rd, next_pc(k.pc), just(self.value_loaded(k, b, 4)))

    def exchange_by(self, k, d, rd, v, place, b, move):
        may = self.may_be_stored(k, d, 4, v, place, b, move) and all_below(len(self.queues), lambda i: misses(self.queues[i], self.parties[i], b, 4))
        return [self.after_exchange(k, d, rd, v, b, move)] if may else None

    def exchanging(self, k, d, op, rd, v, place, b):
        if b is None:
            return None
        return self.exchange_by(k, d, rd, self.updated_value(k.ranges, op, self.value_loaded(k, b, 4), v), place, b,
                                last_below(len(self.queues), lambda i: self.is_own_index(b, 4, i)))

    # instructions

    def follow(self, k, d, instruction):
        """The states that may follow, or None where it isn't shown that the instruction may be executed."""
        if instruction is None:
            return []
        op, *parts = instruction
        if op in ("lui", "auipc"):
            rd, upper = parts
            return [with_result(k, rd, next_pc(k.pc), exactly(upper << 12 if op == "lui" else (k.pc + (upper << 12)) % M32))]
        if op == "jal":
            rd, offset = parts
            return [with_result(k, rd, address(k.pc, offset), exactly(next_pc(k.pc)))]
        if op == "jalr":
            rd, rs1, offset = parts
            return jumping(k, rd, offset, as_number(self.operand(k, rs1)))
        if op in TAKEN:
            rs1, rs2, offset = parts
            return goes_by(when_taken(k, op, rs1, rs2), when_passed(k, op, rs1, rs2), address(k.pc, offset), next_pc(k.pc),
                           is_branch_taken(self.queues, k.ranges, op, self.operand(k, rs1), self.operand(k, rs2)))
        if op in LOADS:
            rd, rs1, offset = parts
            return self.loading(k, op, rd, self.addresses(k, rs1, offset))
        if op in STORES:
            rs2, rs1, offset = parts
            return self.storing(k, d, STORES[op], register_at(k, rs2), self.address_value(k, rs1, offset), self.addresses(k, rs1, offset))
        if op in IMMEDIATES:
            rd, rs1, n = parts
            return [with_result(k, rd, next_pc(k.pc), self.immediate_result(k, op, self.operand(k, rs1), n))]
        if op in SHIFTS:
            rd, rs1, amount = parts
            return [with_result(k, rd, next_pc(k.pc), of_shift(self.queues, k.ranges, op, self.operand(k, rs1), amount))]
        if op in COMPUTED:
            rd, rs1, rs2 = parts
            return [with_result(k, rd, next_pc(k.pc), of_registers(self.queues, k.ranges, op, self.operand(k, rs1), self.operand(k, rs2)))]
        if op == "fence":
            return [going_to(k, next_pc(k.pc))]
        if op == "ecall":
            return [called(k)]
        if op == "ebreak":
            return []
        rd, rs2, rs1 = parts
        return self.exchanging(k, d, op, rd, register_at(k, rs2), self.operand(k, rs1), bounds(k.ranges, self.operand(k, rs1)))

    def reads_owned(self, k, i, place, b, width):
        q = self.queues[i]
        return is_apart(b, width, q.slots, q.size * q.width) or is_owned(k.ranges, q, self.share_at(k, i), place, width)

    def accessed(self, k, instruction):
        """The address as a value, its bounds and the width of an access, with whether it loads and whether it stores; or None."""
        op, *parts = instruction or ("",)
        if op in LOADS or op in STORES:
            _, rs1, offset = parts
            return self.address_value(k, rs1, offset), self.addresses(k, rs1, offset), LOADS.get(op) or STORES[op], op in LOADS, op in STORES
        if op.startswith("amo"):
            place = self.operand(k, parts[2])
            return place, anywhere(bounds(k.ranges, place)), 4, True, True
        return None

    def loads_owned(self, k, i, instruction):
        access = self.accessed(k, instruction)
        return not access or not access[3] or self.reads_owned(k, i, *access[:3])


# ---- Certificates

class Arrow(NamedTuple):
    to: int
    forms: tuple


class Leaf(NamedTuple):
    handed: Form
    arrows: tuple


class Split(NamedTuple):
    variable: int
    limit: int
    low: object
    high: object


class ListedState(NamedTuple):
    """What is known, where it goes on, and of each queue to which the hart sends records with fields, which are right ahead of its count."""

    known: KnownState
    cases: object
    filled: tuple = ()
    ranks: tuple = ()


class Goal(NamedTuple):
    """What ranks of a hart's states are for: of a queue with indices how many positions the hart may own while it waits, of one with tags none, and of
    all queues with indices together no queue."""

    queue: int | None
    owned: int | None


class HartPart(NamedTuple):
    """Its own words, how it opens, its states, what their ranks are for, and then sets of queues that it may lack, for each of which there is one more."""

    own: tuple
    first: int
    numbers: tuple
    states: tuple
    goals: tuple = ()
    lacking: tuple = ()


class OpenedQueue(NamedTuple):
    queue: Queue
    start: int
    fields: tuple = ()


class QueueCertificate(NamedTuple):
    """Of queues with indices, and of those with tags, how each opens, and of each hart its part."""

    queues: tuple
    tagged: tuple
    harts: tuple


class Opening(NamedTuple):
    """Of each hart its code and its 32 registers, and memory's words, the first at address 0."""

    harts: tuple
    words: tuple


NO_PART = HartPart((), 0, (), ())


def number_seen(opening, a, width):
    return sum((get_or(opening.words, (a + at) // 4, 0) >> 8 * ((a + at) % 4) & 255) << 8 * at for at in range(width))


def part_of(c, h):
    return get_or(c.harts, h, NO_PART)


def filled_at(c, h, n):
    """What is right ahead of the counts in a state, or nothing past their end."""
    listed = part_of(c, h).states
    return listed[n].filled if n < len(listed) else ()


def steps_of(c, h):
    return Steps([each.queue for each in c.queues], [part.own for part in c.harts], h)


# arrows

def all_within(queues, ranges, vs, ws, forms):
    return all(is_within(queues, ranges, get_or(vs, at, ANY), value_by(lambda f: substituted(f, forms), w)) for at, w in enumerate(ws))


def is_share(s, t, forms):
    return is_same(0, s.own, substituted(t.own, forms)) and is_same(0, s.owned, substituted(t.owned, forms))


def leads_to(queues, k, t, forms):
    return k.pc == t.pc and are_in(k.ranges, forms, t.ranges) and all_within(queues, k.ranges, k.registers, t.registers, forms) \
        and all_within(queues, k.ranges, k.words, t.words, forms) \
        and all_below(len(queues), lambda i: is_share(get_or(k.shares, i, NO_SHARE), get_or(t.shares, i, NO_SHARE), forms))


def arrow_leads(queues, number_tagged, k, t, forms):
    def to(f):
        return settled(k.ranges, f)
    k, forms = state_by(to, k.ranges, k), tuple(to(g) for g in forms)
    return leads_to(queues, k, t, forms) and tags.tags_lead(len(queues), number_tagged, k, t, forms)


# cases

def at_most(v, r):
    return v if r is None else min(r, v)


def beyond(v, r):
    return None if r is None else monus(r, v + 1)


def may_exceed(v, r):
    return r is None or v < r


def range_changed(ranges, j, t):
    return put_at(ranges, j, t(ranges[j])) if j < len(ranges) else ranges


def with_low(k, j, v):
    ranges = range_changed(k.ranges, j, lambda r: at_most(v, r))
    return state_by(lambda f: settled(ranges, f), ranges, k)


def with_high(k, j, v):
    ranges = range_changed(k.ranges, j, lambda r: beyond(v, r))
    return state_by(lambda f: settled(ranges, raised(j, v + 1, f)), ranges, k)


def leaves(k, cases):
    """Each leaf of the cases, with its state."""
    if isinstance(cases, Leaf):
        yield k, cases
        return
    j, v, low, high = cases
    yield from leaves(with_low(k, j, v), low)
    if may_exceed(v, get_or(k.ranges, j, 0)):
        yield from leaves(with_high(k, j, v), high)


def each_leads(c, h, states, arrows):
    queues, listed = [each.queue for each in c.queues], part_of(c, h).states
    return len(arrows) >= len(states) and all(
        a.to < len(listed) and arrow_leads(queues, len(c.tagged), k, listed[a.to].known, a.forms) for k, a in zip(states, arrows))


def next_states(c, h, code, k, handed):
    told, instruction = tags.tags_of(c, h), instruction_at(code, k.pc)
    states = told.steps.follow(k, handed, instruction)
    return told.next_told(k, instruction, sent.next_received(told.steps, [each.fields for each in c.queues], k, instruction, states))


def is_closed(c, h, code, k, cases):
    for leaf, (handed, arrows) in leaves(k, cases):
        following = next_states(c, h, code, leaf, handed)
        if following is None or not each_leads(c, h, following, arrows):
            return False
    return True


def owns_loads(c, h, code, i, k, cases):
    steps = steps_of(c, h)
    return all(steps.loads_owned(leaf, i, instruction_at(code, leaf.pc)) for leaf, _ in leaves(k, cases))


# the opening

def is_value(queues, numbers, v, x):
    if v is ANY:
        return True
    if isinstance(v, Linear):
        return x == form_value(v.form, numbers) % M32
    if isinstance(v, (EndsAs, HasBits)):
        return False
    q = queue_at(queues, v.queue)
    word = q.index_word(form_value(v.form, numbers))
    return x == (word if isinstance(v, IndexFor) else signed_word(q.index_width, word))


def are_in_ranges(ranges, numbers):
    return len(ranges) == len(numbers) and all(r is None or x <= r for r, x in zip(ranges, numbers))


def opens_share(q, party, start, s, numbers):
    end = start + (q.capacity if party == SENDER else 0)
    return party is None or start == form_value(s.own, numbers) and end == form_value(s.own, numbers) + form_value(s.owned, numbers)


def opens_in(opening, c, h, registers, k, numbers):
    queues, own = [each.queue for each in c.queues], part_of(c, h).own
    registers = put_at(registers, 0, 0)
    return are_in_ranges(k.ranges, numbers) and k.pc == 0 \
        and all(is_value(queues, numbers, v, get_or(registers, j, 0)) for j, v in enumerate(k.registers)) \
        and all(is_value(queues, numbers, get_or(k.words, j, ANY), number_seen(opening, *o)) for j, o in enumerate(own)) \
        and all(opens_share(q, party_of(q, h), each.start, get_or(k.shares, i, NO_SHARE), numbers)
                for i, (q, each) in enumerate(zip(queues, c.queues)))


# queues

def are_apart(a, m, b, n):
    return a + m <= b or b + n <= a


def is_queue(q):
    return q.sender != q.receiver and are_apart(q.head, q.index_width, q.tail, q.index_width) \
        and are_apart(q.head, q.index_width, q.slots, q.size * q.width) and are_apart(q.tail, q.index_width, q.slots, q.size * q.width) \
        and q.size >= 1 and q.capacity <= q.size and q.modulus >= 1 and q.scale >= 1 and q.index_width >= 1 \
        and q.index_width <= 4 and q.base + q.scale * (q.modulus - 1) < 256 ** q.index_width and q.capacity < q.modulus


def opens_empty(opening, q, start):
    return number_seen(opening, q.head, q.index_width) == q.index_word(start) == number_seen(opening, q.tail, q.index_width)


# all of it

def opens_hart(opening, c, h):
    """What `accepts_hart` asks of where a hart opens."""
    part, registers = part_of(c, h), opening.harts[h][1]
    return len(registers) >= 32 and part.first < len(part.states) \
        and opens_in(opening, c, h, registers, part.states[part.first].known, part.numbers) \
        and tags.opens_all_told(c, h, part.states[part.first].known, part.numbers) and sent.opens_unfilled(c, part.states[part.first].filled)


class Flaw(NamedTuple):
    """What of a certificate isn't accepted: ("queue", i), ("tagged", t), ("opening", hart) or ("state", hart, state)."""

    kind: str
    at: int
    state: int = None


def flaws(opening, c):
    """All that isn't accepted, in order: of queues, and then of each hart its opening and its states."""
    for i, each in enumerate(c.queues):
        if not (is_queue(each.queue) and opens_empty(opening, each.queue, each.start) and all(sent.is_field(each.queue, f) for f in each.fields)):
            yield Flaw("queue", i)
    for t, each in enumerate(c.tagged):
        if not tags.accepts_tagged(opening, each):
            yield Flaw("tagged", t)
    for h, (code, _) in enumerate(opening.harts):
        if not opens_hart(opening, c, h):
            yield Flaw("opening", h)
        for n, listed in enumerate(part_of(c, h).states):
            if not (is_closed(c, h, code, listed.known, listed.cases) and sent.keeps_all_fields(c, h, code, listed)):
                yield Flaw("state", h, n)


def first_flaw(opening, c):
    return next(flaws(opening, c), None)


def accepts(opening, c):
    return first_flaw(opening, c) is None


def first_unowned(opening, c, i, h):
    """The first state of the hart with a load of queue i's slots that isn't shown to be of owned ones."""
    code = opening.harts[h][0]
    return next((n for n, (known, cases, *_) in enumerate(part_of(c, h).states) if not owns_loads(c, h, code, i, known, cases)), None)


def accepts_loads(opening, c, i, h):
    return first_unowned(opening, c, i, h) is None


def slot_accesses(opening, c, i):
    """By hart and pc, each once, of which instructions an access in some state may be of a byte of queue i's slots: whether it stores, and loads."""
    return accesses_of(opening, c, c.queues[i].queue)


def accesses_of(opening, c, q):
    """The same of a queue's slots."""
    found = {}
    for h, (code, _) in enumerate(opening.harts):
        steps = steps_of(c, h)
        for known, cases, *_ in part_of(c, h).states:
            for leaf, _ in leaves(known, cases):
                access = steps.accessed(leaf, instruction_at(code, leaf.pc))
                if access and not is_apart(access[1], access[2], q.slots, q.size * q.width):
                    found[h, leaf.pc] = access[4], access[3]
    return [(h, pc, *found[h, pc]) for h, pc in sorted(found)]
