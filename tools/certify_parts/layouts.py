"""Values as the second implementation has them (tools/reference/certificates.py), and as a certificate does: over variables that begin at 0.

An own count is made of three: how often all turns were gone round that its index counts, which the search has no name for and ("n", i) is here, the
position and the turn.
"""

import certificates as reference

from .forms import SIZE, Bits, Word, form, signed


class Spreads(dict):
    """How often each of these variables is taken, by the terms of a form of the search."""

    def __init__(self, queues):
        super().__init__()
        self.queues = queues
        self.rounds = [(queue.period(), queue.turns()) for queue in queues]

    def __missing__(self, terms):
        found = {}
        for (kind, which), m in terms:
            parts = ((kind, 1),)
            if kind == "n":
                period, turns = self.rounds[which]
                parts = (("n", period * turns), ("p", 1), *[("t", period)] * (turns > 1))
            for each, times in parts:
                found[each, which] = found.get((each, which), 0) + signed(m) * times
        self[terms] = found
        return found

    def variables(self, values):
        """The variables of some values."""
        found = {}
        for value in values:
            if value is not None and value.terms:
                found.update(self[value.terms])
        return found


class Layout:
    """Some variables in their order, each with where it begins and up to where it goes from there, as `ranges` has it of those of the search: only those
    that may be several numbers, unless it keeps all."""

    def __init__(self, spreads, ranges, variables, keeps=True):
        self.spreads, self.ranges, self.begins, self.places, self.most = spreads, ranges, {}, {}, []
        for variable in variables:
            low, high = ranges[variable] if variable in ranges and variable[0] != "n" else self.limits(variable)
            self.begins[variable] = low
            if keeps or low != high:
                self.places[variable] = len(self.most)
                self.most.append(None if high is None else high - low)

    def limits(self, variable):
        """The least and the greatest number of a variable, which is None where it has none."""
        low, high = self.ranges.get(variable, (0, None))
        if variable[0] == "n" and high is not None:
            period, turns = self.spreads.rounds[variable[1]]
            low = high = low // (period * turns)
        return low, high

    def begin(self, variable):
        found = self.begins.get(variable)
        return self.limits(variable)[0] if found is None else found

    def half(self, variable, at, is_high):
        """The layout where a variable is at most `at`, or more, and that number as it is counted here."""
        low, high = self.ranges[variable]
        return Layout(self.spreads, {**self.ranges, variable: (at + 1, high) if is_high else (low, at)}, self.places), at - low

    def form(self, value, modulus=None):
        """A form of the search; of one that isn't exact, all numbers below the modulus."""
        constant, factors = signed(value.constant), ()
        if value.terms:
            factors, begins, places = [0] * len(self.most), self.begins, self.places
            for variable, m in self.spreads[value.terms].items():
                constant += m * (begins[variable] if variable in begins else self.begin(variable))
                if variable in places:
                    factors[places[variable]] = m
        return reference.Form(constant % modulus, tuple([m % modulus for m in factors])) if modulus else reference.Form(constant, tuple(factors))

    def value(self, value):
        if value is None:
            return reference.ANY
        if isinstance(value, Bits):
            return reference.HasBits(*value)
        if not isinstance(value, Word):
            return reference.Linear(self.form(value, SIZE))
        if value.bits:
            return reference.EndsAs(value.bits, self.form(value.count, 1 << value.bits))
        # up to the modulus; where that divides 2^32, up to that, so that a sum is the search's
        modulus = self.spreads.queues[value.queue].modulus
        return (reference.SignedFor if value.is_signed else reference.IndexFor)(value.queue, self.form(value.count, modulus if SIZE % modulus else SIZE))

    def of(self, variable):
        """What a variable is here: its least number, or that and one of those that are told apart."""
        at = self.places.get(variable)
        return reference.Form(self.begin(variable), () if at is None else (*[0] * at, 1))

    # ---- back

    def found(self, result, new):
        """What a result is in the search, where the variable ("z", new) comes with it, and that one's range, or None without it; None and None
        where nothing is known."""
        value = result.value
        if isinstance(value, reference.HasBits):
            return Bits(*value), None
        found = value and self.form_found(value.form, new if result.most else None)
        if found is None:
            return None, None
        if isinstance(value, reference.EndsAs):
            found = Word(None, found, True, value.bits)
        elif not isinstance(value, reference.Linear):
            # the remainder that is nearest to 0
            modulus = self.spreads.queues[value.queue].modulus
            count = found._replace(constant=((found.constant + modulus // 2) % modulus - modulus // 2) % SIZE)
            found = Word(value.queue, count, isinstance(value, reference.SignedFor))
        return found, (0, result.most) if result.most else None

    def form_found(self, value, new=None):
        """A form over a new variable and these; None where it is none of the search's."""
        constant, terms = value.constant, {}
        if new is not None and value.factors:
            terms["z", new] = value.factors[0]
        for variable, m in zip(self.places, value.factors[1:]):
            kind, which = variable
            constant -= m * self.begins[variable]
            if kind == "n" and m:
                period, turns = self.spreads.rounds[which]
                times, rest = divmod(signed(m), period * turns)
                if rest:
                    return None
                for (each, _), part in self.spreads[(((kind, which), 1),)].items():
                    terms[each, which] = terms.get((each, which), 0) + (times if each == "n" else -times * part)
            else:
                terms[variable] = terms.get(variable, 0) + m
        # what isn't told apart is a number
        for variable in [each for each in terms if each[0] in "pt" and each not in self.places]:
            constant += terms.pop(variable) * self.begin(variable)
        return form(constant, terms)
