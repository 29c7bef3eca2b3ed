"""Rings whose programs the user gives: drawn runs of a channel over them, each held against the definition of clean
reports, for the command `ring`."""

import channels
import programs
import words
from draws import event_of, runs_of
from faults import Fault
from machine import Machine
from shrinking import part_of

MEMORY_ENTRIES = {"load": "loaded", "store": "stored", "amo": "exchanged"}


def program(text, role):
    """The instructions of a program's text. A refusal says whose line it is."""
    try:
        return [words.decoded(word)[0] for word in programs.read(text)]
    except Fault as fault:
        raise Fault(f"{fault.line} of the {role}", fault.status) from None


class Judge:
    """What a run's entries were so far, and the first one that is a breach."""

    def __init__(self, lists, slots, place):
        base, stride = place
        self.lists, self.size = lists, 16 + 4 * slots
        self.starts = [base + i * (self.size if stride is None else stride) for i in range(len(lists))]
        self.taken, self.closed = [0] * len(lists), [False] * len(lists)

    def breach(self, entry):
        """What the entry breaches, as a line, or None. Only an entry that breaches nothing is counted."""
        name, hart, *numbers = entry.split()
        hart = int(hart)
        if name == "stopped":
            return f"hart {hart} stopped {numbers[0]}"
        if (verb := MEMORY_ENTRIES.get(name.rstrip("12"))):
            return self.outside(verb, hart, int(numbers[0]))
        if hart == 0 and name in ("took", "closed"):
            return self.report(name, *map(int, numbers))
        return None

    def outside(self, verb, hart, address):
        """An address is outside if it is in no block that the hart may touch. No access goes over a word's end."""
        starts = self.starts if hart == 0 else [self.starts[hart - 1]]
        if any(start <= address < start + self.size for start in starts):
            return None
        return f"hart {hart} {verb} outside {'the blocks' if hart == 0 else 'its block'} at {address}"

    def report(self, name, sender, word=None):
        said = f"sender {sender}: {name}" + ("" if word is None else f" {word}")
        if sender >= len(self.lists):
            return f"{said} but there is no such sender"
        if self.closed[sender]:
            return f"{said} after it was closed"
        taken, whole = self.taken[sender], self.lists[sender]
        if name == "closed":
            if taken < len(whole):
                return f"{said} after {taken} of {len(whole)} words"
            self.closed[sender] = True
            return None
        if taken == len(whole):
            return f"{said} after its whole list"
        if word != whole[taken]:
            return f"{said} where {whole[taken]} was next"
        self.taken[sender] += 1
        return None


class Rings:
    """A channel over a user's programs, which runs from its opening as often as it is asked."""

    def __init__(self, codes, slots, lists, capacity, place):
        self.machine = Machine(channels.opened(channels.OWN, slots, lists, place, codes), capacity)
        self.lists, self.slots, self.place = lists, slots, place

    def judged(self, events):
        """The judge after these events, and the first breach or None."""
        judge, state = Judge(self.lists, self.slots, self.place), self.machine.opening
        for event in events:
            outcome, entry, state = self.machine.step(state, event)
            if entry and (breach := judge.breach(outcome)):
                return judge, breach
        return judge, None

    def is_unclean(self, events):
        return self.judged(events)[1] is not None


def drawn(rings, runs, drawing):
    """The events of each drawn run."""
    harts = len(rings.lists) + 1
    for numbers in runs_of(harts, runs, *drawing):
        yield [event_of(k, harts) for k in numbers]


def trial(rings, runs, drawing):
    """The lines of clean runs and None; or None and the earliest run that isn't clean: its events, made fewer, and
    their breach."""
    most, closed = [0] * len(rings.lists), [0] * len(rings.lists)
    for events in drawn(rings, runs, drawing):
        judge, breach = rings.judged(events)
        if breach:
            events = part_of(events, rings.is_unclean)
            return None, (events, rings.judged(events)[1])
        most = list(map(max, most, judge.taken))
        closed = [count + is_closed for count, is_closed in zip(closed, judge.closed)]
    rows = [f"sender {i} took at most {most[i]} of {len(words)} words, closed in {closed[i]} runs"
            for i, words in enumerate(rings.lists)]
    return [f"clean {runs} runs", *rows], None
