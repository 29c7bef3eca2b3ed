"""What a question of the page may hold: its members, their kinds and their ranges."""

import re

from page_parts.faults import Fault

# how much the page takes: events of a schedule, instructions of a test, drawn runs and their outcomes, breakpoints, and
# instructions without memory that an act goes on over
EVENTS, CELLS, RUNS, ROWS, BREAKS, ONWARD = 2_000, 2_000, 100_000, 1_000, 100, 400
LIMITS = {"events": EVENTS, "cells": CELLS, "runs": RUNS, "rows": ROWS, "breaks": BREAKS, "onward": ONWARD}
# bytes of a question
BODY = 8 << 20
BUFFERS = (1, 2, 4, 16)
HARTS, ADDRESSES = 64, 1 << 32
# digits of a number
LONGEST = 20
COMPILERS, FENCES, MAPPINGS = ("gcc", "clang"), ("all", "full", "none"), ("", "rvwmo.h", "ztso.h")
DRAWS = ("uniform", "bursts")
TOKENS = re.compile(r"(?:[al][0-9]{1,2}(?:\*[0-9]{1,4})?(?: |\Z))*")
TEST = {"text": str}
BUFFERED = {**TEST, "buffer": BUFFERS}
RUN = {**BUFFERED, "tokens": str}
QUESTIONS = {
    "test": TEST, "herd": TEST, "c": {**TEST, "compiler": COMPILERS, "fences": FENCES, "mapping": MAPPINGS},
    "view": RUN, "chart": {**RUN, "rows": ("all", "memory")}, "shrink": RUN, "verdict": RUN,
    "onward": {**RUN, "hart": range(HARTS)},
    "seek": {**RUN, "place": range(EVENTS + 1), "breaks": list},
    "read": {**BUFFERED, "schedule": str},
    "draw": {**BUFFERED, "draw": DRAWS, "seed": str, "skip": range(RUNS + 1), "runs": range(1, RUNS + 1),
             "length": range(EVENTS + 1)},
    "threads": BUFFERED, "find": BUFFERED}


class Unasked(Exception):
    """A question that the page doesn't ask."""


def whole(digits):
    """A number of a question. Python takes none of more than 4,300 digits for a number."""
    if len(digits) > LONGEST:
        raise Unasked(f"a number has more than {LONGEST} digits")
    return int(digits)


def is_of(value, kind):
    if kind in (str, list):
        return isinstance(value, kind)
    # what is no number would be looked for in a range one number after the other
    return type(value) is type(kind[0]) and value in kind


def checked(name, asked):
    """A question that has its members, of the right kinds and ranges, and no others."""
    members = QUESTIONS[name]
    if not isinstance(asked, dict) or asked.keys() != members.keys():
        raise Unasked(f"{name} has the members {', '.join(members)}")
    for member, kind in members.items():
        if not is_of(asked[member], kind):
            raise Unasked(f"{member} isn't one that the page takes")
    for pair in asked.get("breaks", []):
        if not isinstance(pair, list) or len(pair) != 2 or not all(is_of(n, range(ADDRESSES)) for n in pair):
            raise Unasked("breaks are pairs of a hart and a pc")
    check_tokens(asked.get("tokens", ""))
    check_seed(asked.get("seed", "0"))
    return asked


def check_tokens(tokens):
    if not TOKENS.fullmatch(tokens):
        raise Unasked("tokens aren't events")
    if sum(int(count or 1) for count in re.findall(r"[al][0-9]+(?:\*([0-9]+))?", tokens)) > EVENTS:
        raise too_long()


def check_seed(seed):
    if not re.fullmatch("[0-9]{1,20}", seed) or int(seed) >> 64:
        raise Fault("BadSeed", ["A seed is a number from 0 to 18446744073709551615."])


def too_long(events=None):
    more = f", and this schedule has {events}" if events else ""
    return Fault("TooLong", [f"The page steps through at most {EVENTS} events{more}."])
