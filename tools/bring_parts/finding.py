"""Asks `ztso find` for a shortest schedule of an outcome of a litmus text. Where it finds none, that outcome wasn't shown,
no more."""

import re
import subprocess
import tempfile
from dataclasses import dataclass
from pathlib import Path

from bring_parts import Refused

import schedules

STATES = 200_000
# what `find` says where it finds nothing, by its exit status
MISSED = {1: re.compile(r"ztso: all ([0-9]+) states seen, none shows it\n"), 5: re.compile(r"ztso: cut at ([0-9]+) states\n")}


@dataclass
class Sought:
    """The tokens of a schedule; or how many states were seen, and whether the search was cut there."""
    tokens: str = None
    seen: int = None
    is_cut: bool = False

    def told(self):
        """What is said of an outcome that wasn't found."""
        return f"not shown in {self.seen} states" + ", where the search stopped" * self.is_cut


def equation(lefts, values):
    """The condition that these observed locations have these values."""
    return " /\\ ".join(f"{left}={value}" for left, value in zip(lefts, values))


def asking(front, condition):
    """A litmus text, given up to its condition, that asks for this one."""
    return f"{front}exists ({condition})\n"


def shortest(program, front, condition, buffer, states):
    """A shortest schedule that makes the condition true. The front is a litmus text up to its condition."""
    with tempfile.TemporaryDirectory() as folder:
        file = Path(folder, "asked.litmus")
        file.write_text(asking(front, condition))
        words = [program, "find", file, "--buffer", buffer, "--states", states]
        done = subprocess.run(list(map(str, words)), stdin=subprocess.DEVNULL, capture_output=True, text=True, check=False)
    if done.returncode == 0 and not done.stderr:
        return Sought(schedules.tokens(schedules.read(done.stdout)))
    said = MISSED.get(done.returncode)
    missed = said and said.fullmatch(done.stderr)
    if done.stdout or not missed:
        raise Refused(f"{program} find: {done.stderr.strip() or f'status {done.returncode}'}")
    return Sought(seen=int(missed[1]), is_cut=done.returncode == 5)
