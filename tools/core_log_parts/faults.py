"""What is wrong with a run's log, and a record can't say: each fault with the line of the log where it shows."""

from typing import NamedTuple

from .event import Event
from .log import Drained, Retired, Trapped
from .record import ECALL, FETCH_FAULT, has_landings, stores

# the opcodes of BRANCH, JALR and JAL
JUMPS = (0x63, 0x67, 0x6F)


class Note(NamedTuple):
    """A fault: its kind, `drain`, `order`, `code` or `cut`, what is said of it, and the step that shows it, if one does."""
    kind: str
    text: str
    step: object = None


def refused(letter="a", hart=0):
    """An event that `ztso check` refuses: the test has this hart, so no run has this outcome."""
    return Event(letter, hart, "nohart", (), None)


def ended(events, notes):
    """The events of a run with these faults: up to the first event that shows one, or all, and then one that is refused."""
    if not notes:
        return events
    steps = {id(note.step) for note in notes if note.step}
    for number, event in enumerate(events, 1):
        if id(event.step) in steps:
            return [*events[:number], refused(event.letter, event.hart)]
    return [*events, refused()]


def faults(run, opening, events, order):
    """The faults of a run with these events in this order."""
    if has_landings(run):
        if (lost := stores(run)) and not any(isinstance(step, Drained) for step in run.steps):
            yield Note("drain", f"line {lost[0].line}: this run stores {times(len(lost))}, and nothing of it lands", lost[0])
        else:
            yield from drains(run, events)
    elif run.has_drains and order != "placed":
        yield Note("drain", "it has stores and no line `drain`: --order placed searches for the landings of such a log")
    yield from backward(run)
    yield from other_words(run, opening)
    yield from (Note("cut", note) for note in run.notes)
    if run.timed_out:
        yield Note("cut", f"the run was cut after {run.cycles} cycles")
    elif run.cycles is None:
        yield Note("cut", f"the run that begins in line {run.line} has no line `end`: the log was cut")
    else:
        yield from unended(run, opening)


def drains(run, events):
    """Drains that aren't their hart's oldest store in the record's order; and where the run ended, stores that no drain
    let out."""
    pending = {}
    for letter, hart, name, _, step in events:
        if letter == "a":
            if name.startswith("store"):
                pending.setdefault(hart, []).append(step)
        else:
            stores = pending.get(hart)
            oldest = stores.pop(0) if stores else None
            if oldest is None or (step.address, step.lanes, step.data) != (oldest.address, oldest.write_lanes, oldest.written):
                drained = store_text(step.address, step.lanes, step.data)
                kept = store_text(oldest.address, oldest.write_lanes, oldest.written) if oldest else "none"
                yield Note("drain", f"line {step.line}: hart {step.hart} drains {drained}, its oldest store is {kept}", step)
    if run.cycles is not None and not run.timed_out:
        for store in (store for hart in sorted(pending) for store in pending[hart]):
            text = store_text(store.address, store.write_lanes, store.written)
            yield Note("drain", f"line {store.line}: hart {store.hart} stores {text}, and no line `drain` lets it out")


def times(number):
    return "once" if number == 1 else f"{number} times"


def store_text(address, lanes, data):
    return f"{address:x} mask {lanes:x} data {data:x}"


def backward(run):
    """Instructions that retire before the one that stands above them of the same hart."""
    last = {}
    for step in run.steps:
        if not isinstance(step, Drained):
            above = last.get(step.hart)
            if above and step.cycle < above.cycle:
                yield Note("order", f"line {step.line}: hart {step.hart} retires in cycle {step.cycle} what stands after line "
                           f"{above.line}, of cycle {above.cycle}: a hart's lines go in its program's order", step)
            last[step.hart] = step


def other_words(run, opening):
    """Instructions that aren't those of the test's code. Where a trap has no word, or nothing could be fetched, there is
    none to compare."""
    words = opening.by_places
    for step in run.steps:
        if isinstance(step, Drained) or isinstance(step, Trapped) and (step.cause == FETCH_FAULT or not step.insn):
            continue
        word = words.get((step.hart, step.pc))
        if step.insn != word:
            there = "has no instruction" if word is None else f"has {word:08x}"
            yield Note("code", f"line {step.line}: hart {step.hart} has {step.insn:08x} at pc {step.pc:x}, where its code {there}",
                       step)


def unended(run, opening):
    """Harts that haven't come to the end of their code though the run ended."""
    last = {step.hart: step for step in run.steps if not isinstance(step, Drained)}
    for hart, code in enumerate(opening.codes):
        step = last.get(hart)
        if step is None and code:
            yield Note("cut", f"hart {hart} has {len(code)} words of code and no line; of RVFI or Spike, is --code right?")
        elif isinstance(step, Retired) and step.insn & 0x7F not in JUMPS and step.insn != ECALL and step.pc + 4 < 4 * len(code):
            yield Note("cut", f"line {step.line}: hart {hart}'s last instruction is at pc {step.pc:x}, and its code goes on")
