"""Channels: the lists of a text, the opening over them, what the receiver reports, and the plan that
finishes a channel. The programs are the listings of docs/channels.md."""

import re
from pathlib import Path

import assembly
import litmus
from digits import of_digits
from faults import DIFFERS, at_event, at_line, refused
from machine import MEMORY, RUNNING, Machine, word_at
from ring_kinds import RINGS
from words import lines

PAGE = Path(__file__).resolve().parent.parent.parent / "docs/channels.md"
LINE, ZERO_WORD, NO_SENDERS, TOO_MANY, TOO_SMALL, NO_ROOM = 34, 16, 17, 18, 19, 20
UNEVEN_BASE, UNEVEN_STRIDE, BLOCKS_MEET = 41, 42, 43
# a place is where block 0 begins, and how far apart the blocks begin, None if one follows the other
DENSE = 0, None
# a ring whose programs the user gives, and its least size
OWN, LEAST_OWN = "own", 1
SENDERS = 63


def lists(text):
    """A list for each line of decimal words, parted by spaces."""
    found = []
    for number, line in enumerate(lines(text), 1):
        words = line.split(" ")
        if not all(re.fullmatch("[0-9]*", word) and of_digits(word) < 1 << 32 for word in words):
            raise at_line(LINE, number)
        found.append(tuple(of_digits(word) for word in words if word))
    return found


def tables(kind):
    """The page's lines for the sender and those of the ring's own for the receiver, if any, by their places."""
    section = PAGE.read_text().split(f"## {RINGS[kind].heading}\n")[1].split("\n## ")[0]
    blocks = [part.split("```")[0].splitlines() for part in section.split("```asm\n")[1:]]
    sender, *own = ({line[:2]: " ".join(line[2:].partition("#")[0].split()) for line in lines} for lines in blocks)
    return sender, own[0] if own else {}


def listings(kind):
    """The sender's instructions and the receiver's. Each receiver is Lamport's, except for lines of the ring's own."""
    sender, own = tables(kind)
    receiver = tables("lamport")[1] | own
    return [assembled(program.values()) for program in (sender, receiver)]


def assembled(program):
    statements = [assembly.statement(text) for text in program]
    labels = {label: at for at, (label, _) in enumerate(statements) if label}
    return [assembly.placed(instruction, at, labels) for at, (_, (instruction,)) in enumerate(statements)]


def opened(kind, slots, words, place=DENSE, programs=None):
    """The channel's opening, as a test that asks nothing. The programs of `own` are the sender's and the receiver's."""
    size = 16 + 4 * slots
    base, stride = place
    apart = size if stride is None else stride
    end = base + len(words) * apart
    if not words:
        raise refused(NO_SENDERS)
    if len(words) > SENDERS:
        raise refused(TOO_MANY)
    if slots < (RINGS[kind].least if kind in RINGS else LEAST_OWN):
        raise refused(TOO_SMALL)
    if base % 4:
        raise refused(UNEVEN_BASE)
    if apart % 4:
        raise refused(UNEVEN_STRIDE)
    if apart < size:
        raise refused(BLOCKS_MEET)
    if end - apart + size > MEMORY or end >= 1 << 32:
        raise refused(NO_ROOM)
    for sender, list_ in enumerate(words):
        if 0 in list_:
            raise refused(ZERO_WORD, f" at sender {sender} place {list_.index(0)}")
    sender, receiver = programs or listings(kind)
    channel = litmus.Test(codes=[receiver] + [sender] * len(words))
    channel.registers = {(0, 9): 4 * slots, (0, 18): apart, (0, 19): end, (0, 20): len(words), (0, 21): base}
    for i, list_ in enumerate(words):
        channel.registers |= {(i + 1, 8): base + i * apart, (i + 1, 9): 4 * slots}
        channel.inboxes[i + 1] = list_
    return channel


class Channel:
    """A channel as it runs: its state, the events that ran and the receiver's reports, as lines."""

    def __init__(self, kind, slots, words, capacity, place=DENSE, programs=None):
        self.machine = Machine(opened(kind, slots, words, place, programs), capacity)
        self.state = self.machine.opening
        self.kind, self.events, self.reports = kind, [], []

    def run(self, event):
        outcome, entry, self.state = self.machine.step(self.state, event)
        self.events.append(event)
        name, *parts = outcome.split()
        if entry and name in ("took", "closed"):
            self.reports.append(" ".join([name, *parts[1:]]))
        return outcome

    def land(self, hart):
        """All that is pending there."""
        while self.state[0][hart][3]:
            self.run(("l", hart))

    def is_ready(self, hart):
        """Whether a sender runs and doesn't wait for the receiver."""
        pc, registers, status, _, _ = self.state[0][hart]
        ring, memory = RINGS[self.kind], self.state[1]
        if ring.room_in == "slot":
            waits = pc == ring.room_at and word_at(memory, registers[28] + 16) != 0
        else:
            waits = pc == ring.room_at and word_at(memory, registers[8] + 8) == registers[6]
        return status == RUNNING and not waits

    def finish(self):
        """The plan, where a sender isn't reported closed."""
        harts = range(len(self.state[0]))
        closings = {f"closed {sender}" for sender in harts[:-1]}
        if closings <= set(self.reports):
            return
        for hart in harts:
            self.land(hart)
        while not closings <= set(self.reports):
            hart = max((hart for hart in harts[1:] if self.is_ready(hart)), default=0)
            self.run(("a", hart))
            self.land(hart)


def reports(kind, slots, words, steps, capacity, finish=False, where=DENSE, programs=None):
    """The receiver's reports in the run of these events, and of the plan after them if the channel is to
    be finished. A record is refused where an outcome isn't the run's."""
    channel = Channel(kind, slots, words, capacity, where, programs)
    for place, (event, said) in enumerate(steps):
        if said not in (channel.run(event), None):
            raise at_event(DIFFERS, place)
    if finish:
        channel.finish()
    return channel.reports
