"""An event of a record."""

from functools import lru_cache
from typing import NamedTuple


class Event(NamedTuple):
    """An event, its outcome (a name and what follows the hart), and the step of the log that it is."""
    letter: str
    hart: int
    name: str
    values: tuple
    step: object

    def line(self):
        return line_of(*self[:4]).rstrip("\n")

    def outcome(self):
        return self.line().partition(" ")[2]


@lru_cache(maxsize=1 << 16)
def line_of(letter, hart, name, values):
    """The line of a record, which many events have in common, with its end."""
    return " ".join([f"{letter}{hart}", name, *map(str, (hart, *values))]) + "\n"
