"""Fields of records: what a queue's sender sends in each record, and what of that its receiver knows. Definition by definition, and by the same
names, what crates/queue_certificates/specs defines in Fields, Effects, Filled and, of queues with fields, in Certificates. `certificates.py`
has what these stand on, and asks this where it judges a certificate.

A list is a tuple. What is right ahead of a sender's count is, for each position from there on, the numbers of the fields.
"""

from typing import NamedTuple

import certificates

# no number of a field, of numbers up to 2^32 each, has more bytes
MOST_BYTES = 9


class Field(NamedTuple):
    """Of each record the number of `width` bytes from `at` on is low + step * j, for some j up to `count`."""

    at: int
    width: int
    low: int
    step: int
    count: int


# ---- Fields

def last_number(f):
    return f.low + f.step * f.count


def is_field(q, f):
    return f.at + f.width <= q.width and last_number(f) < 256 ** min(f.width, MOST_BYTES)


def field_number(f):
    return certificates.Result(f.count, certificates.Linear(certificates.Form(f.low, (f.step,))))


def keeps_numbers(op, f):
    return op not in ("lb", "lh") or last_number(f) < 1 << 8 * certificates.LOADS[op] - 1


def field_there(fields, at, width):
    return next((f for f in fields if (f.at, f.width) == (at, width)), None)


def field_in(steps, fields, k, place, width, i):
    """The field of a record of queue i that the hart receives and owns, which these bytes are."""
    q = steps.queues[i]
    if q.receiver != steps.h or not isinstance(place, certificates.Linear):
        return None
    if not certificates.is_owned(k.ranges, q, steps.share_at(k, i), place, width):
        return None
    return field_there(fields[i], certificates.offset_at(q, place.form.constant), width)


def field_below(steps, fields, k, place, width, n):
    """Of the queues below n, that of the one with the greatest number."""
    found = (field_in(steps, fields, k, place, width, i) for i in reversed(range(n)))
    return next((f for f in found if f is not None), None)


def after_field(k, op, rd, look, f, states):
    if look is not None or f is None or not keeps_numbers(op, f):
        return states
    return [certificates.with_result(k, rd, certificates.next_pc(k.pc), field_number(f))]


def next_received(steps, fields, k, instruction, states):
    """The states that follow, where `states` do if nothing is known of what is received."""
    op, *parts = instruction or ("",)
    if op not in certificates.LOADS or states is None:
        return states
    (rd, rs1, offset), width, n = parts, certificates.LOADS[op], len(steps.queues)
    reached = steps.addresses(k, rs1, offset)
    look = certificates.last_below(n, lambda i: steps.is_look(reached, width, i))
    return after_field(k, op, rd, look, field_below(steps, fields, k, steps.address_value(k, rs1, offset), width, n), states)


# ---- Effects

class Leaves(NamedTuple):
    pass


class Fills(NamedTuple):
    position: int
    offset: int
    width: int


class Publishes(NamedTuple):
    number: int


class PublishesSome(NamedTuple):
    most: int


def published_by(d, bound):
    if bound is None:
        return None
    return Publishes(bound) if bound == d.constant else PublishesSome(bound)


def filled_by(ranges, q, s, place, width):
    if isinstance(place, certificates.Linear) and certificates.is_owned(ranges, q, s, place, width):
        constant = place.form.constant
        return Fills(certificates.position_at(q, s.own.constant, constant), certificates.offset_at(q, constant), width)
    return Leaves()


def moves_head(steps, i, b, width):
    return certificates.last_below(len(steps.queues), lambda n: steps.is_own_index(b, width, n)) == i


def effect_at(steps, i, k, d, place, b, width):
    if moves_head(steps, i, b, width):
        return published_by(d, certificates.most(k.ranges, d))
    return filled_by(k.ranges, steps.queues[i], steps.share_at(k, i), place, width)


def effect_of(steps, i, k, d, instruction):
    """What an instruction of queue i's sender does to it; None where it isn't known how much it publishes."""
    op, *parts = instruction or ("",)
    if op in certificates.STORES:
        _, rs1, offset = parts
        return effect_at(steps, i, k, d, steps.address_value(k, rs1, offset), steps.addresses(k, rs1, offset), certificates.STORES[op])
    if op.startswith("amo"):
        place = steps.operand(k, parts[2])
        return effect_at(steps, i, k, d, place, certificates.anywhere(certificates.bounds(k.ranges, place)), 4)
    return Leaves()


def value_stored(steps, k, instruction):
    op, *parts = instruction or ("",)
    return steps.operand(k, parts[0]) if op in certificates.STORES else certificates.ANY


# ---- Filled

NO_FIELD = Field(0, 0, 0, 0, 0)


def is_filled(size, marks, d, j):
    return d < size and j in certificates.get_or(marks, d, ())


def lies_in(b, g, f):
    if b is None:
        return False
    return f.low <= b.low and b.high <= last_number(f) \
        and certificates.mod(g.constant % certificates.M32, f.step) == certificates.mod(f.low, f.step) \
        and certificates.vanishes(f.step, certificates.risings(certificates.M32, g.factors)) \
        and certificates.vanishes(f.step, certificates.fallings(certificates.M32, g.factors))


def is_number_of(ranges, v, f):
    return isinstance(v, certificates.Linear) and lies_in(certificates.bounds_of(certificates.M32, ranges, v.form), v.form, f)


def is_beside(f, offset, width):
    return f.at + f.width <= offset or offset + width <= f.at


def is_right_after(ranges, stored, f, offset, width, was):
    if (f.at, f.width) == (offset, width):
        return is_number_of(ranges, stored, f)
    return is_beside(f, offset, width) and was


def is_filled_after(ranges, q, fields, stored, marks, effect, d, j):
    if isinstance(effect, PublishesSome):
        return False
    if isinstance(effect, Publishes):
        return is_filled(q.size, marks, d + effect.number, j)
    if isinstance(effect, Fills) and effect.position == d:
        f = certificates.get_or(fields, j, NO_FIELD)
        return is_right_after(ranges, stored, f, effect.offset, effect.width, is_filled(q.size, marks, d, j))
    return is_filled(q.size, marks, d, j)


def are_so(marks, f):
    return all(f(d, j) for d, numbers in enumerate(marks) for j in numbers)


def most_published(effect):
    return effect[0] if isinstance(effect, (Publishes, PublishesSome)) else 0


def may_send(size, fields, marks, effect):
    return certificates.all_below(most_published(effect), lambda d: all(is_filled(size, marks, d, j) for j in range(len(fields))))


# ---- Certificates

def leaves_slots(steps, i, k, instruction):
    """An instruction of queue i's receiver stores nothing to its slots."""
    access, q = steps.accessed(k, instruction), steps.queues[i]
    return not access or not access[4] or certificates.is_apart(access[1], access[2], q.slots, q.size * q.width)


def effect_sends(c, h, i, marks, k, arrows, stored, effect):
    """An instruction of queue i's sender publishes no record that isn't right, and what each next state says to be right is so."""
    if effect is None:
        return False
    q, fields = c.queues[i].queue, c.queues[i].fields
    return may_send(q.size, fields, marks, effect) and all(
        are_so(certificates.get_or(certificates.filled_at(c, h, a.to), i, ()),
               lambda d, j: is_filled_after(k.ranges, q, fields, stored, marks, effect, d, j)) for a in arrows)


def keeps_records(c, h, code, i, marks, k, leaf):
    steps, instruction = certificates.steps_of(c, h), certificates.instruction_at(code, k.pc)
    party = certificates.party_of(steps.queues[i], h)
    if party is None:
        return True
    if party == certificates.RECEIVER:
        return leaves_slots(steps, i, k, instruction)
    return effect_sends(c, h, i, marks, k, leaf.arrows, value_stored(steps, k, instruction), effect_of(steps, i, k, leaf.handed, instruction))


def keeps_fields(c, h, code, i, marks, known, cases):
    return all(keeps_records(c, h, code, i, marks, k, leaf) for k, leaf in certificates.leaves(known, cases))


def keeps_all_fields(c, h, code, listed):
    return all(keeps_fields(c, h, code, i, certificates.get_or(listed.filled, i, ()), listed.known, listed.cases)
               for i, each in enumerate(c.queues) if each.fields)


def opens_unfilled(c, filled):
    return all(are_so(certificates.get_or(filled, i, ()), lambda d, j: False) for i, each in enumerate(c.queues) if each.fields)
