"""Runs by the second implementation, entry by entry: drawn ones, those of a schedule, and one that is led to show a record that is taken before it is
stored. Nothing of it is believed: the program replays what is shown."""

from dataclasses import dataclass

import draws
import machine
import schedules

# how many runs are drawn to see what harts access, of how many events, and with what buffers; and how far a run is led
RUNS, LENGTH, SEED, BUFFER, FAR = 4, 3000, 1, 4, 4000
# of this many of the first records one is looked for that its receiver loads too early
TURNS = 4
ACCESSES = ("load", "store", "amo")
OTHERS_WORD = 4


@dataclass(frozen=True)
class Entry:
    """What an event did: the how manieth entry it is, its event, its pc, its text, and of an access its first byte, its bytes, and the value that it read, or
    stored."""
    number: int
    event: tuple
    pc: int
    text: str
    kind: str
    hart: int
    at: int = None
    width: int = None
    value: int = None

    @staticmethod
    def of(number, event, pc, text):
        kind, hart, *numbers = text.split()
        name, width = kind.rstrip("12"), int(kind[-1]) if kind[-1] in "12" else OTHERS_WORD
        access = (int(numbers[0]), width, int(numbers[-1])) if name in ACCESSES else ()
        return Entry(number, event, pc, text, name, int(hart), *access)

    def meets(self, at, width):
        return self.at is not None and self.at < at + width and at < self.at + self.width

    def is_store(self):
        return self.kind in ("store", "amo")

    def is_load(self):
        return self.kind in ("load", "amo")

    def stores_to(self, at, width):
        return self.is_store() and self.meets(at, width)


class Run:
    """A run, event by event."""

    def __init__(self, test, buffer, events=()):
        self.machine, self.entries = machine.Machine(test, buffer), []
        self.state = self.machine.opening
        for event in events:
            self.step(event)

    def step(self, event):
        """Makes an event, and answers its entry, if it has one."""
        pc = self.state[0][event[1]][0] if event[1] < len(self.state[0]) else 0
        text, is_entry, self.state = self.machine.step(self.state, event)
        if is_entry:
            self.entries.append(Entry.of(len(self.entries), event, pc, text))
        return self.entries[-1] if is_entry else None

    def until(self, hart, holds, others=()):
        """Lets a hart act until an entry holds, and where it waits its stores land; that entry, or None. Between its acts others act and land."""
        for _ in range(FAR):
            for event in ((letter, other) for other in others for letter in "al"):
                self.step(event)
            entry = self.step(("a", hart))
            if entry is None and self.step(("l", hart)) is None:
                return None
            if entry and holds(entry):
                return entry
        return None

    def land(self, hart):
        while self.step(("l", hart)):
            pass

    def schedule(self):
        return schedules.written([entry.event for entry in self.entries])


def of_schedule(test, buffer, schedule):
    return Run(test, buffer, schedules.read(schedule))


def drawn(test, runs=RUNS, length=LENGTH):
    """The entries of drawn runs, each with its run's number and the state of its hart before."""
    harts, engine = len(test.codes), machine.Machine(test, BUFFER)
    events = [draws.event_of(k, harts) for k in range(2 * harts)]
    for run, numbers in enumerate(draws.runs_of(harts, runs, SEED, length, 0, "bursts")):
        state = engine.opening
        for k in numbers:
            before = state[0][k % harts]
            text, is_entry, state = engine.step(state, events[k])
            if is_entry:
                yield run, Entry.of(0, events[k], before[0], text), before


@dataclass(frozen=True)
class Shown:
    """A run that shows a record which is taken before it is stored: its schedule, and the entries of the store to the index, of the load, and of the store
    of the record."""
    schedule: str
    published: Entry
    load: Entry
    store: Entry

    def rows(self):
        """What marks the rows of its picture."""
        return {entry.number + 1: words for entry, words in ((self.published, "publishes it"), (self.load, "loads what was there before"),
                                                             (self.store, "stores the record"))}


def taken_early(test, buffer, queue, index_pc, store_pc):
    """Runs, each with what it would show, in which the sender goes on to a store of its index, the receiver to a load of that slot, and only then the sender
    to the record's store. An instruction's pc names each store. Further harts act only where the sender comes to none without them."""
    further = [hart for hart in range(len(test.codes)) if hart not in (queue.sender, queue.receiver)]
    for others in ((), further) if further else ((),):
        yield from taken_beside(lambda: Run(test, buffer), queue, index_pc, store_pc, others)


def taken_beside(begin, queue, index_pc, store_pc, others):
    """The same, where these harts act beside the sender."""
    def ahead(turn):
        run = begin()
        for _ in range(turn + 1):
            index = run.until(queue.sender, lambda entry: entry.pc == index_pc and entry.is_store(), others)
        return run, index
    for turn in range(min(queue.size, TURNS)):
        (run, index), (further, _) = ahead(turn), ahead(turn)
        goal = further.until(queue.sender, lambda entry: entry.pc == store_pc and entry.is_store(), others) if index else None
        if not goal:
            return
        run.land(queue.sender)
        begun = len(run.entries)
        load = run.until(queue.receiver, lambda entry, goal=goal: entry.is_load() and entry.meets(goal.at, goal.width))
        has_seen = any(entry.is_load() and (entry.at, entry.value) == (index.at, index.value) for entry in run.entries[begun:-1])
        store = run.until(queue.sender, lambda entry, goal=goal: entry.pc == store_pc and entry.stores_to(goal.at, goal.width), others) if load else None
        # values that are the same convince nobody
        if store and has_seen and (load.at, load.width) == (store.at, store.width) and load.value != store.value:
            yield run, Shown(run.schedule(), index, load, store)
