"""Places landings in the order of a log that has none, with loads and AMOs of which it has only where they retired.

A store enters its hart's buffer where the log has it. A load or an AMO may have taken effect at any point since its
hart's act before, and a landing at any point since its store. The search takes what changes nothing for others as early
as it can, and tries which store lands, or which AMO is done, where the run can't go on otherwise. A placement needn't be
trusted: a wrong one can only be refused."""

from dataclasses import dataclass

from .event import Event

WIDTHS = {"load": 4, "load2": 2, "load1": 1, "store": 4, "store2": 2, "store1": 1}
# how many states a search may see, and of how many acts
STATES, ACTS = 100_000, 2_000


class TooLong(Exception):
    """The run has more acts, or the search saw as many states, as may be."""


@dataclass(frozen=True)
class State:
    """How many acts of each hart are done, each hart's pending stores (address, width, value), oldest first, and the bytes
    of memory that differ from the opening's."""
    done: tuple
    pending: tuple
    memory: frozenset


@dataclass(frozen=True)
class Node:
    """A state of the search, with the events from the one before it."""
    before: object
    events: list
    state: State

    def way(self):
        """The events from the opening."""
        parts, node = [], self
        while node:
            parts.append(node.events)
            node = node.before
        return [event for part in reversed(parts) for event in part]


class Search:
    """The acts of a run in the order of its log, and what they need."""

    def __init__(self, acts, words, capacity):
        self.acts, self.capacity = acts, capacity
        self.opening = {address + i: value >> 8 * i & 0xFF for address, value in words.items() for i in range(4)}
        harts = max((act.hart for act in acts), default=0) + 1
        self.columns = [[at for at, act in enumerate(acts) if act.hart == hart] for hart in range(harts)]
        self.start = State((0,) * harts, ((),) * harts, frozenset())

    def next_of(self, state, hart):
        """The place of a hart's next act in the log, or None."""
        done, column = state.done[hart], self.columns[hart]
        return column[done] if done < len(column) else None

    def first(self, state):
        """The first act of the log that isn't done, or None."""
        return min((at for hart in range(len(self.columns)) if (at := self.next_of(state, hart)) is not None), default=None)

    def value(self, state, hart, address, width):
        """What a load of a hart reads: each byte from its newest pending store, or from memory."""
        memory, found = dict(state.memory), 0
        for i in range(width):
            byte = memory.get(address + i, self.opening.get(address + i, 0))
            for start, size, stored in state.pending[hart]:
                if start <= address + i < start + size:
                    byte = stored >> 8 * (address + i - start) & 0xFF
            found |= byte << 8 * i
        return found

    def written(self, state, address, width, value):
        """Memory after a write."""
        memory = dict(state.memory)
        for i in range(width):
            place, byte = address + i, value >> 8 * i & 0xFF
            memory.pop(place, None)
            if byte != self.opening.get(place, 0):
                memory[place] = byte
        return frozenset(memory.items())

    def after(self, state, hart, pending=None, memory=None, acts=1):
        """A state with changes of one hart and of memory."""
        done = tuple(each + acts * (number == hart) for number, each in enumerate(state.done))
        buffers = state.pending if pending is None else state.pending[:hart] + (pending,) + state.pending[hart + 1:]
        return State(done, buffers, state.memory if memory is None else memory)

    def quiet(self, state, at):
        """The event and the state after an act that changes nothing for other harts, if it can be done, or None."""
        act = self.acts[at]
        if act.name in WIDTHS and act.name.startswith("load"):
            address, value = act.values
            read = self.value(state, act.hart, address, WIDTHS[act.name])
            if value not in (None, read):
                return None
            return Event("a", act.hart, act.name, (address, read), act.step), self.after(state, act.hart)
        if act.name == "amo" or at != self.first(state):
            return None
        pending = state.pending[act.hart]
        if act.name in WIDTHS:
            if len(pending) == self.capacity:
                return None
            store = act.values[0], WIDTHS[act.name], act.values[1]
            return act, self.after(state, act.hart, (*pending, store))
        if act.name == "fence" and act.values == ("full",) and pending:
            return None
        return act, self.after(state, act.hart)

    def settled(self, state):
        """The events that change nothing for others, as many as can be done, and the state after them."""
        events, goes_on = [], True
        while goes_on:
            goes_on = False
            for hart in range(len(self.columns)):
                while (at := self.next_of(state, hart)) is not None and (step := self.quiet(state, at)):
                    events.append(step[0])
                    state, goes_on = step[1], True
        return events, state

    def choices(self, state):
        """The events between which a run has a choice, each with the state after it: AMOs and landings."""
        for hart, pending in enumerate(state.pending):
            at = self.next_of(state, hart)
            act = self.acts[at] if at is not None else None
            if act and act.name == "amo" and not pending:
                address, old, new = act.values
                read = self.value(state, hart, address, 4)
                if old in (None, read):
                    event = Event("a", hart, "amo", (address, read, new), act.step)
                    yield event, self.after(state, hart, memory=self.written(state, address, 4, new))
        for hart, pending in enumerate(state.pending):
            if pending:
                memory = self.written(state, *pending[0])
                yield Event("l", hart, "land", (), None), self.after(state, hart, pending[1:], memory, 0)

    def found(self):
        """The events of a run that has all acts, where there is one; otherwise the longest that was met, and then the act
        that it can't do."""
        events, state = self.settled(self.start)
        best = last = Node(None, events, state)
        seen, stack = {state}, [(last, self.choices(state))]
        while stack and self.first(last.state) is not None:
            step = next(stack[-1][1], None)
            if step is None:
                stack.pop()
                continue
            events, state = self.settled(step[1])
            if state in seen:
                continue
            if len(seen) == STATES:
                raise TooLong
            seen.add(state)
            last = Node(stack[-1][0], [step[0], *events], state)
            stack.append((last, self.choices(state)))
            best = last if sum(state.done) > sum(best.state.done) else best
        if (missing := self.first(best.state)) is not None:
            return [*best.way(), self.acts[missing]]
        lands = [Event("l", hart, "land", (), None) for hart, pending in enumerate(best.state.pending) for _ in pending]
        return best.way() + lands


def placed(acts, words, capacity):
    """The acts of a run in an order with landings, where memory opens with these words."""
    if len(acts) > ACTS:
        raise TooLong
    return Search(acts, words, capacity).found()
