"""The record of a core's run: its events in one order, each with what the core says came of it."""

from functools import lru_cache

from . import landings, placing
from .event import Event, line_of
from .log import Drained, LogError, Retired

HEAD = "ztso-schedule 2\n"
ORDERS = ("performed", "placed", "retired")
# the number of the machine's stop for each cause of an exception
STOPS = {0: 12, 1: 13, 2: 8, 3: 15, 4: 9, 5: 11, 6: 9, 7: 11, 11: 14}
FETCH_FAULT = 1
ECALL, MISC_MEM, FENCE_TSO = 0x73, 0x0F, 0x833
SUFFIXES = {4: "", 2: "2", 1: "1"}


def access(name, step, lanes, data):
    """The outcome of a load or a store: the bytes of its lanes, as one number."""
    low = (lanes & -lanes).bit_length() - 1
    width = lanes.bit_count()
    if width not in SUFFIXES or lanes >> low != (1 << width) - 1:
        raise LogError(f"the mask {lanes:x} is of no load and no store")
    value = None if data is None else data >> 8 * low & (1 << 8 * width) - 1
    return name + SUFFIXES[width], (step.address + low, value)


@lru_cache(maxsize=1 << 16)
def retired(numbers):
    """The event of a retired instruction without its step, by what its line has: lines of many runs have it in common."""
    step = Retired(*numbers)
    return "a", step.hart, *outcome(step)


def outcome(step):
    """The outcome of a retired instruction."""
    if step.read_lanes and step.write_lanes:
        if (step.read_lanes, step.write_lanes) != (0xF, 0xF):
            raise LogError(f"the masks {step.read_lanes:x} and {step.write_lanes:x} are of no AMO")
        return "amo", (step.address, step.read, step.written)
    if step.read_lanes:
        return access("load", step, step.read_lanes, step.read)
    if step.write_lanes:
        return access("store", step, step.write_lanes, step.written)
    if step.insn & 0x7F == MISC_MEM:
        stores_before_loads = step.insn >> 24 & 1 and step.insn >> 21 & 1
        return "fence", ("full" if stores_before_loads and step.insn >> 20 != FENCE_TSO else "part",)
    return ("ended" if step.insn == ECALL else "inner"), ()


def event(step, opening):
    """The event of a step, or None where it is none: a hart that runs past its code's end has ended."""
    if step.hart >= len(opening.codes):
        raise LogError(f"line {step.line}: the log has a hart {step.hart}, and the test has {len(opening.codes)} harts")
    if isinstance(step, Retired):
        try:
            return tuple.__new__(Event, (*retired(step[:-1]), step))
        except LogError as error:
            raise LogError(f"line {step.line}: {error}") from None
    if isinstance(step, Drained):
        return Event("l", step.hart, "land", (), step)
    if step.cause == FETCH_FAULT and step.pc == 4 * len(opening.codes[step.hart]):
        return None
    if step.cause not in STOPS:
        raise LogError(f"line {step.line}: no hart of the machine stops for the cause {step.cause}")
    return Event("a", step.hart, "stopped", (STOPS[step.cause],), step)


def times(events, order):
    """When each event happened: a cycle, then acts before landings. A hart's acts stay in the log's order, so
    an act is never earlier than the one before it."""
    latest = {}
    for letter, hart, name, _, step in events:
        if letter == "l":
            yield step.cycle, 1
            continue
        known = order == "performed" or not name.startswith("load")
        cycle = latest[hart] = max(step.performed if known else step.cycle, latest.get(hart, 0))
        yield cycle, 0


def has_landings(run):
    """Whether a log has landings. One of runs that have stores and no drain has none."""
    return run.has_drains and (run.others_land or any(isinstance(step, Drained) for step in run.steps) or not stores(run))


def stores(run):
    """The stores of a run."""
    return [step for step in run.steps if isinstance(step, Retired) and step.write_lanes and not step.read_lanes]


def events(run, opening, order="performed", capacity=4):
    """A run's events. The order is by the cycle in which each took effect; `placed`, which knows of loads only
    when they retired, and places landings too where the log has none; or `retired`, as the log has them."""
    found = [made for step in run.steps if (made := event(step, opening))]
    if order == "retired":
        return found
    stamps = list(times(found, order))
    found = [found[at] for at in sorted(range(len(found)), key=stamps.__getitem__)]
    if order == "performed":
        return found
    return placing.placed(found, opening.words) if has_landings(run) else landings.placed(found, opening.words, capacity)


def text(found):
    return HEAD + "".join([line_of(*each[:4]) for each in found])
