"""Certificates of queues as docs/queue-texts.md has their texts: what a text says, or its first fault with its line."""

import re
import sys
from functools import lru_cache

import words
from digits import of_digits
from faults import at_line

HEAD, LINE, PLACE, LIMIT, UNFINISHED = 45, 46, 47, 48, 49
QUEUES, SLOTS, FIELDS, POSITIONS, HARTS, OWN, GOALS, STATES, VARIABLES, SPLITS = 16, 65_536, 16, 64, 64, 64, 64, 16_384, 64, 1024
NAMES = ("queue", "field", "tagged", "hart", "own", "open", "goes", "lacks", "state", "most", "reg", "word", "share", "filled", "rank", "split", "leaf", "to")
KNOWN = ("reg", "word", "share", "filled", "rank")
# the bytes that an own word may have
WIDTHS = (1, 2, 4)
# how a tag tells, and how many numbers follow the word
TELLS = {"zero": 0, "number": 0, "bits": 3, "phases": 5}
ROUND = 2**32
MOST = str(ROUND)
# a certificate says the same numbers and forms again and again: the last ones are remembered, of each up to this number
REMEMBERED = 1 << 14

sys.setrecursionlimit(10_000)


class Bad(Exception):
    """The words of a line aren't those that it needs."""


def need(holds):
    if not holds:
        raise Bad


@lru_cache(REMEMBERED)
def number(word):
    need(word.isascii() and word.isdigit() and of_digits(word) < ROUND)
    return of_digits(word)


def count(word):
    return ROUND if word == MOST else number(word)


@lru_cache(REMEMBERED)
def form(word, variables):
    """The constant of a form, and its factors up to the last one that it names."""
    first, *others = word.split("+")
    constant = 0
    if "*" in first:
        others = [first, *others]
    else:
        constant = count(first)
    factors = []
    for piece in others:
        need("*" in piece)
        factor, variable = piece.split("*", 1)
        factor, variable = count(factor), number(variable)
        need(len(factors) <= variable < variables)
        factors += [0] * (variable - len(factors)) + [factor]
    return constant, tuple(factors)


def place(word):
    """Where an own word lies, and its bytes: all four if they aren't said."""
    at, colon, width = word.partition(":")
    found = number(at), number(width) if colon else 4
    need(found[1] in WIDTHS)
    return found


class Reader:
    """Goes down a text: each function takes the lines of what it is named after."""

    def __init__(self, text):
        split = words.lines(text)
        self.lines = [(at, found) for at, line in enumerate(split, 1) if (found := re.findall(r"[^ \t]+", line))]
        self.end, self.at, self.listed, self.queues, self.tagged = len(split) + 1, 0, 0, [], []

    def fault(self, kind):
        return at_line(kind, self.lines[self.at][0] if self.at < len(self.lines) else self.end)

    def name(self):
        """What the next line begins with, or nothing at the end."""
        if self.at == len(self.lines):
            return None
        name = self.lines[self.at][1][0]
        if name not in NAMES:
            raise self.fault(LINE)
        return name

    def take(self, names, made, few=lambda found: True):
        """What `made` makes of the words of the next line, which must begin with one of these names and keep its limit."""
        name = self.name()
        if name not in names:
            raise self.fault(PLACE if name else UNFINISHED)
        try:
            found = made(*self.lines[self.at][1][1:])
        except (Bad, TypeError):
            raise self.fault(LINE) from None
        if not few(found):
            raise self.fault(LIMIT)
        self.at += 1
        return found

    def certificate(self):
        if self.at == len(self.lines) or self.lines[self.at][1] != ["ztso-queues", "1"]:
            raise self.fault(HEAD)
        self.at, harts = 1, []
        while self.name() == "queue":
            self.queues.append((self.take(("queue",), self.queue, lambda found: len(self.queues) < QUEUES), []))
            fields = self.queues[-1][1]
            while self.name() == "field":
                fields.append(self.take(("field",), self.field, lambda found: len(fields) < FIELDS))  # pylint: disable=cell-var-from-loop
        while self.name() == "tagged":
            self.tagged.append(self.take(("tagged",), self.with_tags, lambda found: found[3] <= SLOTS and len(self.tagged) < QUEUES))
        while not harts or self.name():
            harts.append(self.hart(len(harts)))
        return self.queues, self.tagged, harts

    def queue(self, *given):
        need(len(given) == 14)
        return [*map(number, given[:10]), *map(count, given[10:])]

    @staticmethod
    def field(*given):
        need(len(given) == 5)
        return [*map(number, given[:2]), *map(count, given[2:])]

    @staticmethod
    def with_tags(*given):
        """The numbers of a queue, those of its elements with the tags, where in one a tag lies, how it tells, and the position at which it opens."""
        need(len(given) >= 9 and given[7] in TELLS)
        at = 8 + TELLS[given[7]]
        start, *elements = given[at:] or [""]
        # no elements are named where they are the slots
        need(len(elements) in (0, 2))
        return [*map(number, (*given[:5], *(elements or (given[2], given[4])), *given[5:7])), (given[7], *map(number, given[8:at])), count(start)]

    def hart(self, before):
        self.take(("hart",), lambda: None, lambda found: before < HARTS)
        self.own, states = [], []
        if self.name() == "own":
            self.own = self.take(("own",), lambda *given: [*map(place, given)], lambda found: len(found) <= OWN)
        opening = self.take(("open",), lambda first, *given: (number(first), [*map(count, given)]), lambda found: len(found[1]) <= VARIABLES)
        for_ranks = {"goes": [], "lacks": []}
        while self.name() in for_ranks:
            name = self.name()
            found = for_ranks[name]
            found.append(self.take((name,), {"goes": self.goal, "lacks": self.lacks}[name], lambda _: len(found) < GOALS))  # pylint: disable=cell-var-from-loop
        while self.name() not in (None, "hart"):
            states.append(self.state())
        return self.own, opening, states, for_ranks["goes"], for_ranks["lacks"]

    @staticmethod
    def goal(queue, *owned):
        """The queue, or none, and how many positions the hart may own while it waits, or none."""
        need(len(owned) == 1 or queue != "-" and not owned)
        return None if queue == "-" else number(queue), count(owned[0]) if owned else None

    @staticmethod
    def lacks(*queues):
        return [*map(number, queues)]

    def state(self):
        pc = self.take(("state",), number, lambda found: self.listed < STATES)
        self.listed += 1
        self.most, known, filled, ranks, self.splits = [], {}, {}, [], 0
        if self.name() == "most":
            self.most = self.take(("most",), lambda *given: [None if word == "-" else count(word) for word in given],
                                  lambda found: len(found) <= VARIABLES)
        while self.name() in KNOWN:
            name = self.name()
            if name == "rank":
                ranks = self.take(KNOWN, lambda *given: [form(word, len(self.most)) for word in given])
                continue
            made = {"share": self.share, "filled": self.filled}.get(name) or self.value_of(name)
            place, what = self.take(KNOWN, made)
            (filled if name == "filled" else known)[(name, place) if name != "filled" else place] = what
        return pc, self.most, known, filled, ranks, self.case((*KNOWN, "split", "leaf"))

    def value_of(self, name):
        def made(place, word):
            least, most = (1, 32) if name == "reg" else (0, len(self.own))
            need(least <= number(place) < most)
            if not word.startswith(("@", "~", "^", "&")):
                return number(place), form(word, len(self.most))
            which, colon, rest = word[1:].partition(":")
            if word[0] == "&":
                return number(place), ("&", number(which), number(rest))
            need(colon and number(which) < (33 if word[0] == "^" else len(self.queues)))
            return number(place), (word[0], number(which), *form(rest, len(self.most)))
        return made

    def share(self, queue, own, owned):
        need(number(queue) < len(self.queues) + len(self.tagged))
        return number(queue), (form(own, len(self.most)), form(owned, len(self.most)))

    def filled(self, queue, further, *given):
        queue, further, fields = number(queue), number(further), [*map(count, given)]
        need(fields and further < POSITIONS and queue < len(self.queues) and all(field < len(self.queues[queue][1]) for field in fields))
        return (queue, further), fields

    def split(self, variable, most):
        need(number(variable) < len(self.most))
        return number(variable), count(most)

    def case(self, names=("split", "leaf")):
        if self.name() == "split":
            at = self.take(names, self.split, lambda found: self.splits < SPLITS)
            self.splits += 1
            return at, self.case(), self.case()
        handed, arrows = self.take([name for name in names if name == "leaf"], lambda word: form(word, len(self.most))), []
        while self.name() == "to":
            arrows.append(self.take(("to",), lambda to, *forms: (number(to), [form(word, len(self.most) + 1) for word in forms]),
                                    lambda found: len(found[1]) <= VARIABLES))
        return handed, arrows


def read(text):
    """What a text says: the numbers of each queue with those of its fields, what each queue with tags has, and of each hart its own words, how it
    opens, its states, and what their ranks are for."""
    return Reader(text).certificate()
