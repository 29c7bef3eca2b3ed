"""The states of a search with one key, as they were joined, where those that may be joined or cover one another are found by their values."""

from itertools import count

from .forms import Form


class Group:
    """States that were met and joined, what they were joined to, and the case tree of that once it was followed."""

    def __init__(self, met, state):
        self.met, self.state, self.tree, self.number, self.like = met, state, None, None, None


def signature(state):
    """Of two states with the same one, `Search.is_value` takes a value of one for the other's only where both are equal. None where it may do
    otherwise."""
    return None if state.handed else tuple([value.terms if value.__class__ is Form else value for value in state.registers + state.words])


class Groups:
    """The groups with one key, the oldest first, by what their states' values are."""

    def __init__(self):
        self.numbers, self.all, self.by_values, self.asked = count(), {}, {}, (None, None)

    def __iter__(self):
        return iter(list(self.all.values()))

    def __len__(self):
        return len(self.all)

    def signature(self, state):
        """`signature`, which is mostly asked for the same state again."""
        if self.asked[0] is not state:
            self.asked = state, signature(state)
        return self.asked[1]

    def values_like(self, state):
        """The groups with the values of a state, by their numbers."""
        return self.by_values.setdefault(self.signature(state), {}).setdefault((state.registers, state.words), {})

    def add(self, group):
        group.number, group.like = next(self.numbers), self.values_like(group.state)
        self.all[group.number] = group.like[group.number] = group

    def remove(self, group):
        del self.all[group.number], group.like[group.number]

    def of(self, state):
        """The group of which this is the very state, or None."""
        return next((group for group in self.values_like(state).values() if group.state is state), None)

    def near(self, state):
        """The groups of which the states may cover this one, or be covered by it."""
        own, found = self.signature(state), dict(self.values_like(state))
        for other, values in self.by_values.items():
            if other is None or other != own:
                for groups in values.values():
                    found.update(groups)
        return [found[number] for number in sorted(found)]
