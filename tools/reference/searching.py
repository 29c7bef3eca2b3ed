"""A search through the states that a test's machine reaches, breadth first, for the command `find` and for explore."""

from machine import is_finished, value_of
from schedules import EVENTS


class Search:
    """The states that were seen, at most `most`, each with the state and the event before it."""

    def __init__(self, test, machine, most):
        self.machine, self.most = machine, most
        # whether no more states may be seen, or a way would have more events than a schedule may
        self.is_cut = True
        self.events = [(letter, hart) for letter in "al" for hart in range(len(test.codes))]
        self.before = {machine.opening: None}

    def states(self):
        """Each state as it is seen first, in order. No way has more events than a schedule may have."""
        yield self.machine.opening
        front = [self.machine.opening]
        for _ in range(EVENTS):
            if not front:
                break
            following = []
            for state in front:
                for event in self.events:
                    if len(self.before) == self.most:
                        return
                    _, entry, to = self.machine.step(state, event)
                    if entry and to not in self.before:
                        self.before[to] = state, event
                        following.append(to)
                        yield to
            front = following
        self.is_cut = bool(front)

    def way_to(self, state):
        """The events by which a state was seen first."""
        events = []
        while self.before[state]:
            state, event = self.before[state]
            events.append(event)
        return events[::-1]


def found(test, machine, most):
    """The events to the first state that ends with an outcome that is looked for, one that makes the condition true, and
    with `forall` one that makes it false; or None, as all states were seen or the search was cut. And the search."""
    search = Search(test, machine, most)
    for state in search.states():
        if is_finished(state) and test.holds(value_of(state)) == (test.kind == "exists"):
            return search.way_to(state), search
    return None, search
