"""Shrinking: leaves events out of a schedule until its outcome needs each one that is left. docs/looking.md
has the order in which they are tried."""

from machine import is_finished, outcome


def part_of(events, is_wanted):
    """A part of wanted events that is still wanted, and from which no event can be left out."""
    size = len(events) // 2
    while size > 1:
        events = without_pieces(events, size, is_wanted)
        size //= 2
    while (left := without_pieces(events, 1, is_wanted)) != events:
        events = left
    return events


def without_pieces(events, size, is_wanted):
    """The events without each piece of this size that they needn't have, the first one first."""
    at = 0
    while at < len(events):
        left = events[:at] + events[at + size:]
        if is_wanted(left):
            events = left
        else:
            at += size
    return events


class Runs:
    """A test's runs by their events."""

    def __init__(self, test, machine):
        self.test = test
        self.machine = machine

    def state_after(self, events):
        state = self.machine.opening
        for event in events:
            _, _, state = self.machine.step(state, event)
        return state

    def with_entries(self, events):
        """The events that add an entry."""
        state, own = self.machine.opening, []
        for event in events:
            _, added, state = self.machine.step(state, event)
            own += [event] if added else []
        return own

    def end(self, events):
        """The outcome, or None where the run isn't finished."""
        state = self.state_after(events)
        return outcome(self.test, state) if is_finished(state) else None


def shrunk(test, machine, events):
    """The events that are left, or None where the run isn't finished."""
    runs = Runs(test, machine)
    end = runs.end(events)
    if end is None:
        return None
    return part_of(runs.with_entries(events), lambda left: runs.end(left) == end)
