"""Schedule texts of both versions: read with their refusals, and written in the canonical form."""

import re
from itertools import groupby

from digits import LARGE, of_digits
from faults import COUNT, HART, HEAD, OUTCOME, TOKEN, TRUNCATED, at_byte

HEAD_LINE, RECORD_LINE = "ztso-schedule 1", "ztso-schedule 2"
HARTS, EVENTS = 64, 1_048_576
TOKEN_SHAPE = re.compile(r"([al])([0-9]+)(?:\*([0-9]+))?")
CUT_SHAPE = re.compile(r"[al](?:[0-9]+\*)?")


# how many numbers an outcome has after its hart
NUMBERS = {"inner": 0, "load": 2, "load1": 2, "load2": 2, "store": 2, "store1": 2, "store2": 2, "amo": 3,
           "next": 1, "took": 2, "closed": 1, "ended": 0, "stopped": 1, "land": 0, "waited": 0, "nothing": 0,
           "over": 0, "nohart": 0}
WORDS = {"fence": ("full", "part"), "next": ("end",)}
OF_LANDINGS, OF_ACTS = {"land", "nothing"}, NUMBERS.keys() - {"land", "nothing"} | {"fence"}
OF_BOTH = {"over", "nohart"}


def read(text):
    """The events of a schedule."""
    return [event for event, _ in read_steps(text)]


def read_steps(text):
    """The events of a schedule, each with the outcome that a record gives it, or None."""
    head = re.match(rf"({HEAD_LINE}|{RECORD_LINE})(\r?\n|\Z)", text)
    if not head:
        raise at_byte(HEAD, 0)
    if head[1] == RECORD_LINE:
        return record(text, len(RECORD_LINE))
    return [(event, None) for event in read_tokens(text, head.end())]


def read_record(text):
    """The events of a record, each with its outcome."""
    if not re.match(rf"{RECORD_LINE}(\r?\n|\Z)", text):
        raise at_byte(HEAD, 0)
    return record(text, len(RECORD_LINE))


def bytes_before(text, place):
    return place if text.isascii() else len(text[:place].encode())


def run_of(token, byte, room):
    """The event of a token, and how often it comes."""
    letter, hart, count = token.groups()
    hart, count = of_digits(hart), of_digits(count or "1")
    if hart >= HARTS:
        raise at_byte(HART, byte)
    if not 1 <= count <= room:
        raise at_byte(COUNT, byte)
    return (letter, hart), count


def read_tokens(text, start):
    """The events of the tokens that a text has from there on."""
    events = []
    for piece in re.compile(r"[^ \t\r\n]+").finditer(text, start):
        byte = bytes_before(text, piece.start())
        token = TOKEN_SHAPE.fullmatch(piece[0])
        if not token:
            if piece.end() == len(text) and CUT_SHAPE.fullmatch(piece[0]):
                raise at_byte(TRUNCATED, len(text.encode()))
            raise at_byte(TOKEN, byte)
        event, count = run_of(token, byte, EVENTS - len(events))
        events += [event] * count
    return events


def outcome(event, words):
    """The canonical text of the outcome that these words give an event, if they give it one that it may have."""
    (letter, hart), (name, *values) = event, words or ("",)
    if name not in OF_BOTH | (OF_ACTS if letter == "a" else OF_LANDINGS) or not values:
        return None
    numbers = [of_digits(value) if re.fullmatch("[0-9]+", value) else LARGE for value in values]
    if numbers[0] != hart:
        return None
    if values[1:] and len(values) == 2 and values[1] in WORDS.get(name, ()):
        return f"{name} {hart} {values[1]}"
    if len(numbers) - 1 != NUMBERS.get(name) or max(numbers) >= 1 << 32:
        return None
    if name == "stopped" and not 8 <= numbers[1] <= 15:
        return None
    return " ".join([name, *map(str, numbers)])


def record(text, start):
    """The events of a record's lines, each with its outcome."""
    steps = []
    for line in re.compile(r"[^\n]*(?:\n|\Z)").finditer(text, start):
        body = re.sub(r"\r?\n\Z", "", line[0])
        words = re.findall(r"[^ \t]+", body)
        if not words:
            continue
        byte = bytes_before(text, line.start())
        token = TOKEN_SHAPE.fullmatch(words[0])
        is_cut = token or CUT_SHAPE.fullmatch(words[0])
        if is_cut and line.end() == len(text) and body.endswith(words[0]) and len(words) == 1 and body == line[0]:
            raise at_byte(TRUNCATED, len(text.encode()))
        if not token:
            raise at_byte(TOKEN, byte)
        event, count = run_of(token, byte, EVENTS - len(steps))
        said = outcome(event, words[1:])
        if said is None:
            raise at_byte(OUTCOME, byte)
        steps += [(event, said)] * count
    return steps


def tokens(events):
    """The tokens of the canonical form."""
    runs = [(event, len(list(run))) for event, run in groupby(events)]
    return " ".join(f"{letter}{hart}" + (f"*{count}" if count > 1 else "")
                    for (letter, hart), count in runs)


def after_semicolon(events):
    """How a line ends that names a run by its schedule."""
    return " ;" + (f" {tokens(events)}" if events else "")


def written(events):
    return f"{HEAD_LINE}\n" + (f"{tokens(events)}\n" if events else "")


def record_written(steps):
    """The canonical text of events with their outcomes."""
    runs = [(step, len(list(run))) for step, run in groupby(steps)]
    lines = [f"{tokens([event] * count)} {said}" for (event, said), count in runs]
    return "".join(f"{line}\n" for line in (RECORD_LINE, *lines))
