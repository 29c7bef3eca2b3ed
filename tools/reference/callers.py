"""Code that calls a queue's functions: drawn runs of a litmus test, each held against what docs/functions.md says that a
caller owes, for the command `callers`."""

from collections import Counter

import programs
import words
from draws import event_of, runs_of
from machine import MEMORY, Machine, is_finished, word_at
from shrinking import part_of

# the functions as docs/functions.md lists them
FUNCTIONS = {"lamport_try_send": """
lw x5,0(x10)
lw x6,64(x10)
addi x7,x5,4
bne x7,x12,test
addi x7,x0,0
test: beq x6,x7,full
add x5,x10,x5
sw x11,128(x5)
sw x7,0(x10)
addi x10,x0,1
jalr x0,0(x1)
full: addi x10,x0,0
jalr x0,0(x1)
""", "lamport_try_receive": """
lw x5,64(x10)
lw x6,0(x10)
beq x5,x6,empty
add x7,x10,x5
lw x11,128(x7)
addi x5,x5,4
bne x5,x12,keep
addi x5,x0,0
keep: sw x5,64(x10)
addi x10,x0,1
jalr x0,0(x1)
empty: addi x10,x0,0
jalr x0,0(x1)
""", "cached_try_send": """
lw x5,0(x10)
lw x6,4(x10)
addi x7,x5,4
bne x7,x12,test
addi x7,x0,0
test: beq x6,x7,look
store: add x5,x10,x5
sw x11,128(x5)
sw x7,0(x10)
addi x10,x0,1
jalr x0,0(x1)
full: addi x10,x0,0
jalr x0,0(x1)
look: lw x6,64(x10)
beq x6,x7,full
sw x6,4(x10)
jal x0,store
""", "fastforward_try_send": """
lw x5,0(x10)
add x7,x10,x5
lw x6,128(x7)
bne x6,x0,full
addi x5,x5,4
bne x5,x12,keep
addi x5,x0,0
keep: sw x11,128(x7)
sw x5,0(x10)
addi x10,x0,1
jalr x0,0(x1)
full: addi x10,x0,0
jalr x0,0(x1)
""", "fastforward_try_receive": """
lw x5,64(x10)
add x7,x10,x5
lw x11,128(x7)
beq x11,x0,empty
addi x5,x5,4
bne x5,x12,keep
addi x5,x0,0
keep: sw x0,128(x7)
sw x5,64(x10)
addi x10,x0,1
jalr x0,0(x1)
empty: addi x10,x0,0
jalr x0,0(x1)
"""}
# the function that each kind's sender calls, and the one that its receiver calls
KINDS = {"lamport": ("lamport_try_send", "lamport_try_receive"), "cached": ("cached_try_send", "lamport_try_receive"),
         "fastforward": ("fastforward_try_send", "fastforward_try_receive")}
RETURNS = 0x28, 0x30
HEAD, COPY, TAIL, SLOTS = 0, 4, 64, 128
STORED = {"store": 4, "store2": 2, "store1": 1, "amo": 4}


def first_copy(code, text):
    """The pc at which the first copy of a function stands in a hart's code, or None."""
    function = [words.decoded(word)[0] for word in programs.read(text.strip())]
    return next((4 * at for at in range(len(code)) if code[at:at + len(function)] == function), None)


class Party:
    """Where one party's function begins, and whose it is."""

    def __init__(self, hart, entry, sends):
        self.hart, self.entry, self.sends = hart, entry, sends

    def enters(self, state, base):
        pc, registers, *_ = state[0][self.hart]
        return pc == self.entry and registers[10] == base

    def returns(self, before):
        """Whether its hart's next instruction is one of the function's returns."""
        return before[0][self.hart][0] - self.entry in RETURNS

    def goes_on(self, is_calling, before, state, base):
        """Whether it is in a call once its hart went from `before` to a state."""
        return is_calling and not self.returns(before) or self.enters(state, base)


class Callers:
    """A test's runs, by pairs of a state and which parties are in a call. What an event makes of a pair is kept."""

    def __init__(self, test, capacity, queue):
        self.test, self.machine = test, Machine(test, capacity)
        self.base, self.slots, self.sender, self.receiver, self.kind = queue
        self.opening = self.machine.opening, (False, False)
        self.known = {}

    @property
    def end(self):
        return self.base + SLOTS + 4 * self.slots

    def code(self, hart):
        return self.test.codes[hart] if hart < len(self.test.codes) else []

    def owed_at_opening(self):
        """What isn't so where the queue begins, as a line, or None. It finds the functions."""
        if self.base % 4 or not self.slots or self.end > MEMORY:
            return "the block isn't aligned to 4 bytes, has no slot, or ends past the memory"
        if self.sender == self.receiver:
            return f"hart {self.sender} both sends and receives"
        sends, receives = KINDS[self.kind]
        self.parties = (Party(self.sender, first_copy(self.code(self.sender), FUNCTIONS[sends]), True),
                        Party(self.receiver, first_copy(self.code(self.receiver), FUNCTIONS[receives]), False))
        for party, name in zip(self.parties, KINDS[self.kind]):
            if party.entry is None:
                return f"hart {party.hart} has no {name} in its code"
        return self.owed_by_words()

    def owed_by_words(self):
        """Both indices are offsets of slots, a copy of the tail is an old one, and a slot of FastForward's is 0 just where no word waits."""
        opening = self.machine.opening[1]
        head, copy, tail = (word_at(opening, self.base + offset) for offset in (HEAD, COPY, TAIL))
        for offset, index in ((HEAD, head), (TAIL, tail)):
            if not self.is_offset(index):
                return f"the index at {self.base + offset} opens as {index}, not as the offset of a slot"
        waiting = (head - tail) // 4 % self.slots
        if self.kind == "fastforward" and head == tail and word_at(opening, self.base + SLOTS + tail):
            waiting = self.slots
        if self.kind == "cached" and copy not in {(tail + 4 * on) % (4 * self.slots) for on in range(waiting + 1, self.slots + 1)}:
            return f"the copy of the tail at {self.base + COPY} opens as {copy}, not as an offset that the tail can have had"
        if self.kind == "fastforward":
            return self.owed_by_slots(opening, tail, waiting)
        return None

    def owed_by_slots(self, opening, tail, waiting):
        full = {(tail + 4 * on) % (4 * self.slots) for on in range(waiting)}
        for offset in range(0, 4 * self.slots, 4):
            address = self.base + SLOTS + offset
            word = word_at(opening, address)
            if offset in full and not word:
                return f"the slot at {address} opens as 0, where a word waits"
            if offset not in full and word:
                return f"the slot at {address} opens as {word} and not as 0"
        return None

    def is_offset(self, word):
        return word % 4 == 0 and word < 4 * self.slots

    def step(self, pair, event):
        """The pair after an event, what is owed at its entry, as a line, or None, and the calls that returned by it: who
        called, and a0."""
        if (pair, event) not in self.known:
            self.known[pair, event] = self.stepped(pair, event)
        return self.known[pair, event]

    def stepped(self, pair, event):
        before, calling = pair
        outcome, is_entry, after = self.machine.step(before, event)
        if not is_entry:
            return pair, None, ()
        letter, hart = event
        if letter == "l":
            return (after, calling), None, ()
        owed = None if self.is_calling(hart, calling) else self.owed(hart, before, outcome, after)
        returned = tuple((party.sends, before[0][hart][1][10]) for party, is_calling in zip(self.parties, calling)
                         if party.hart == hart and is_calling and party.returns(before))
        calling = tuple(party.goes_on(is_calling, before, after, self.base) if party.hart == hart else is_calling
                        for party, is_calling in zip(self.parties, calling))
        return (after, calling), owed, returned

    def is_calling(self, hart, calling):
        return any(party.hart == hart and is_calling for party, is_calling in zip(self.parties, calling))

    def owed(self, hart, before, outcome, after):
        """What a hart in no call owes at its entry."""
        name, _, *numbers = outcome.split()
        if name in STORED:
            address = int(numbers[0])
            if address < self.end and self.base < address + STORED[name]:
                return f"hart {hart} wrote to the block at {address} outside of a call, at pc {before[0][hart][0]}"
        for party in self.parties:
            if party.hart == hart and party.enters(after, self.base):
                return self.owed_by_call(party, after[0][hart][1])
        return None

    def owed_by_call(self, party, registers):
        """What is owed by the registers with which a party enters its function."""
        called = f"hart {party.hart} called with"
        if registers[12] != 4 * self.slots:
            return f"{called} a2 = {registers[12]}, not the bytes of the slots"
        if self.kind == "fastforward" and party.sends and registers[11] == 0:
            return f"{called} a1 = 0, which is no word"
        back = registers[1] & ~1
        if back % 4 or back == party.entry:
            return f"{called} ra = {registers[1]}, no place to return to"
        return None

    def first_owed(self, events):
        """What a run of these events owes first, or None."""
        pair = self.opening
        for event in events:
            pair, owed, _ = self.step(pair, event)
            if owed:
                return owed
        return None

    def counted(self, events, counts):
        """Counts the calls of a run that owes nothing, and whether it isn't finished."""
        pair = self.opening
        for event in events:
            pair, _, returned = self.step(pair, event)
            counts.update(returned)
        counts["unfinished"] += not is_finished(pair[0])


def lines(callers, runs, counts):
    """What is told of runs that owe nothing, and whether a call returned."""
    is_called = any(counts[party, a0] for party in (True, False) for a0 in (0, 1))
    return [f"kept {runs} runs" if is_called else f"no call returned in {runs} runs",
            f"hart {callers.sender} sent {counts[True, 1]} words and found the queue full {counts[True, 0]} times",
            f"hart {callers.receiver} received {counts[False, 1]} words and found the queue empty {counts[False, 0]} times",
            f"unfinished {counts['unfinished']}"], is_called


def trial(callers, runs, drawing):
    """The lines of runs that keep what callers owe, whether a call returned in one, and None. Else None, False and the events
    and the line of what is owed: at the opening, or first in the earliest run that owes anything, made short."""
    if owed := callers.owed_at_opening():
        return None, False, ([], owed)
    harts = len(callers.test.codes)
    counts = Counter()
    for numbers in runs_of(harts, runs, *drawing):
        events = [event_of(k, harts) for k in numbers]
        if owed := callers.first_owed(events):
            return None, False, (part_of(events, lambda left: callers.first_owed(left) == owed), owed)  # pylint: disable=cell-var-from-loop
        callers.counted(events, counts)
    return *lines(callers, runs, counts), None
