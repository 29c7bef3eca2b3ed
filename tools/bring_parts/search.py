"""The outcomes of a small test by a search of all states on the machine of tools/reference, each with a shortest
schedule, for tables of samples. An outcome that isn't among them wasn't shown, no more."""

import runpy
from dataclasses import dataclass
from functools import lru_cache

from bring_parts import TOOLS

import litmus
import schedules
from machine import RUNNING, WIDTHS, Machine

STATES = 200_000
REACHABLE = runpy.run_path(str(TOOLS / "reference/explore"))["reachable"]


class Eager(Machine):
    """The machine with fewer ways: an instruction that needs no memory comes at once, since it can be moved before
    what other harts do, and a finished run has it anyway. So outcomes and the least lengths of their runs stay. After
    `states` states nothing more happens. A search asks for all events of a state before those of the next one."""

    def __init__(self, test, buffer, states):
        super().__init__(test, buffer)
        self.left = states
        self.local = [[needs_no_memory(each) for each in code] for code in test.codes]
        self.at = self.only = None

    def step(self, state, event):
        if state is not self.at:
            self.at, self.only = state, self.first(state)
            self.left -= 1
        if self.left < 0 or self.only not in (None, event):
            return "", False, state
        return super().step(state, event)

    def first(self, state):
        """The event that comes before all others, or None."""
        for hart, (pc, _, status, _, _) in enumerate(state[0]):
            if status == RUNNING and pc // 4 < len(self.local[hart]) and self.local[hart][pc // 4]:
                return "a", hart
        return None


def needs_no_memory(instruction):
    return instruction[0] not in WIDTHS and instruction[0] not in ("ecall", "ebreak") and instruction != ("fence", True)


@dataclass
class Found:
    """The outcomes with a shortest schedule's tokens, how many states were seen, and whether more were left."""
    schedules: dict
    states: int
    cut: bool

    def told(self):
        """What is said of an outcome that isn't among them."""
        return f"not shown in {self.states} states" + (", where the search stopped" if self.cut else "")


@lru_cache(maxsize=64)
def outcomes(text, buffer=4, states=STATES):
    """Every outcome that the search shows of a litmus text."""
    test = litmus.read(text)
    machine = Eager(test, buffer, states)
    try:
        found, seen = REACHABLE(test, machine)
    except OverflowError:
        return Found({}, states, True)
    return Found({values: schedules.tokens(events) for values, events in found.items()}, seen, machine.left < 0)
