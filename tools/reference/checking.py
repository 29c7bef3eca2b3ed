"""Records of one test, one after the other: what each is judged, and the table of their outcomes."""

import re

import schedules
from faults import DIFFERS, NO_TEXT, TOO_LARGE, Fault, refused
from machine import is_finished, outcome

TEXT_BYTES = 1_048_576
HEAD = re.compile(rb"ztso-schedule 2(?:\r?\n|\Z)")


def texts(lines):
    """The texts of the records: each begins at a line that is the head of version 2. What stands before the first
    one is a text too, unless its lines are blank and it is no longer than a text may be. If no line is a head, all that
    was read is one text, also if it is empty."""
    held = []
    for line in lines:
        if HEAD.fullmatch(line):
            text = b"".join(held)
            if not is_left_out(text):
                yield text
            held = []
        held.append(line)
    yield b"".join(held)


def is_left_out(text):
    return len(text) <= TEXT_BYTES and not text.replace(b"\r\n", b"\n").strip(b" \t\n")


def read(text):
    """The events of a record, each with the outcome that it says."""
    if len(text) > TEXT_BYTES:
        raise refused(TOO_LARGE)
    try:
        text = text.decode()
    except UnicodeDecodeError:
        raise refused(NO_TEXT) from None
    return schedules.read_record(text)


def line_of(text, event):
    """The number of the line on which an event of a record stands; the head line is the first."""
    before = 0
    for number, line in enumerate(text.decode().split("\n"), 1):
        words = line.removesuffix("\r").split()
        if number > 1 and words:
            before += int(words[0].partition("*")[2] or 1)
        if event < before:
            return number
    raise AssertionError


def judged(machine, text):
    """What is said of a record, and the state after it where it is accepted."""
    steps = read(text)
    state = machine.opening
    for place, (event, said) in enumerate(steps):
        found, _, state = machine.step(state, event)
        if found != said:
            line = line_of(text, place)
            raise Fault(f"ztso: refused {DIFFERS} at event {place} line {line}: {said}, the run has {found}", 2)
    return ("accepted" if is_finished(state) else "unfinished"), state


def report(test, machine, lines):
    """The lines of a check, and whether no record is refused."""
    found, unfinished, refusals = {}, 0, 0
    for number, text in enumerate(texts(lines), 1):
        try:
            line, state = judged(machine, text)
        except Fault as fault:
            yield f"{number} {fault.line.removeprefix('ztso: ')}"
            refusals += 1
            continue
        yield f"{number} {line}"
        if line == "unfinished":
            unfinished += 1
        else:
            values = outcome(test, state)
            count, first = found.get(values, (0, number))
            found[values] = count + 1, first
    for values, (count, first) in sorted(found.items()):
        lefts = "".join(f" {left}={value}" for (left, _), value in zip(test.lefts, values))
        yield f"{count}{lefts} ; record {first}"
    yield f"unfinished {unfinished}"
    yield f"refused {refusals}"
