"""Steps texts: the harts, their opening and the events, or the first fault with its line."""

import re

import words
from digits import of_digits
from faults import COUNT, HART, TOKEN, TRUNCATED, at_line, refused
from litmus import Test
from schedules import CUT_SHAPE, EVENTS, HARTS, TOKEN_SHAPE

LINE, CODE, MEMORY = 34, 4096, 4 * 4096


def tokens(line, number):
    """The events of a `steps` line."""
    found, total = [], 0
    for piece in re.compile(r"[^ \t\r]+").finditer(line, line.index("steps") + len("steps")):
        shape = TOKEN_SHAPE.fullmatch(piece[0])
        if not shape:
            cut = piece.end() == len(line) and CUT_SHAPE.fullmatch(piece[0])
            raise at_line(TRUNCATED if cut else TOKEN, number)
        letter, hart, count = shape.groups()
        hart, count = of_digits(hart), of_digits(count or "1")
        if hart >= HARTS:
            raise at_line(HART, number)
        if not 1 <= count <= EVENTS - total:
            raise at_line(COUNT, number)
        total += count
        found.append(((letter, hart), count))
    return found


def read(text):
    """The opening, as a test that asks nothing, and the events."""
    test, events = Test(), []
    for number, line in enumerate(words.lines(text), 1):
        head, *rest = re.findall(r"[^ \t]+", line) or [""]
        if head == "steps":
            more = tokens(line, number)
            if sum(count for _, count in more) > EVENTS - len(events):
                raise at_line(COUNT, number)
            for event, count in more:
                events += [event] * count
        elif head and not takes(test, head, rest):
            raise at_line(LINE, number)
    if not test.codes:
        raise refused(LINE)
    return test, events


def takes(test, head, rest):
    """Takes a line that opens something, if it is one."""
    if head == "hart":
        if len(test.codes) == HARTS or len(rest) > CODE or \
                not all(re.fullmatch("[0-9A-Fa-f]{8}", word) for word in rest):
            return False
        decoded = [words.decoded(int(word, 16)) for word in rest]
        test.codes.append([each[0] if each else ("illegal",) for each in decoded])
        return True
    if (head, len(rest)) not in (("reg", 3), ("word", 2)) or not all(re.fullmatch("[0-9]+", word) for word in rest):
        return False
    *place, value = map(of_digits, rest)
    if value >= 1 << 32:
        return False
    if head == "reg":
        hart, register = place
        if hart >= len(test.codes) or not 1 <= register <= 31:
            return False
        test.registers[hart, register] = value
        return True
    if place[0] % 4 or place[0] >= MEMORY:
        return False
    test.words[place[0]] = value
    return True
