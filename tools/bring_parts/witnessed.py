"""The tests of litmus/ with their witnesses, and what a program shows of one."""

import litmus
import schedules
from witnesses import family_file, witnesses

from bring_parts import ROOT
from bring_parts.logs import values_in

SHELF = ROOT / "litmus"
# drawn runs are this many times as long as the longest witness, so that most of them finish
STRETCH = 4
# of a test that has no witness yet
LENGTH = 48


class Entry:
    """A test of the shelf and its witnesses."""

    def __init__(self, path):
        self.path = path
        self.name = path.name.removesuffix(".litmus")
        self.test = litmus.read(path.read_text())
        self.ran = 0

    def witnesses(self):
        """The events of each outcome that has a witness."""
        return {tuple(map(int, outcome.split("-"))): schedules.read(text) for outcome, text in witnesses(self.path).items()}

    def case_name(self, values):
        return f"{self.name}.{named(values)}"

    def expected_path(self):
        return family_file(self.path)

    def has(self, case_name):
        """Whether a case of its family is of one of its witnesses."""
        return case_name.rpartition(".")[0] == self.name

    def length(self):
        return STRETCH * max(map(len, self.witnesses().values()), default=LENGTH // STRETCH)


def named(values):
    """The name of an outcome, as `0-1`."""
    return "-".join(map(str, values))


def shown(entry, text):
    """The outcome that a state text and its verdict give, or None if the test isn't finished."""
    if text.endswith("\nUnfinished\n"):
        return None
    values = values_in(text)
    return tuple(values.get(place, 0) for _, place in entry.test.lefts)
