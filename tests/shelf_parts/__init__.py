"""The shelf of litmus tests below litmus/: each test with its witnesses, and what a program shows of it."""

import math
import os
import re
import subprocess
import sys
import tempfile
from concurrent.futures import ThreadPoolExecutor
from contextlib import contextmanager
from pathlib import Path

ROOT = Path(__file__).resolve().parent.parent.parent
REFERENCE = ROOT / "tools/reference/ztso"
sys.path[:0] = [str(ROOT / folder) for folder in ("tools", "tools/reference", "cases")]

import schedules  # noqa: E402
from bring_parts.witnessed import SHELF, Entry, named, shown  # noqa: E402
from faults import Fault  # noqa: E402
from kit import chosen, form  # noqa: E402

RUNS = 100_000
SEED = 1


class Wrong(Exception):
    """Something isn't as it should be."""


def answers(part, work, rows):
    """What the work on each row answers, several side by side. What goes wrong ends the tool by one line."""
    with ThreadPoolExecutor(os.cpu_count()) as pool:
        try:
            return list(pool.map(lambda row: work(*row), rows))
        except (Wrong, Fault, OSError) as error:
            sys.exit(f"shelf {part}: {error}")


def output(program, *words):
    """What the program writes. A verdict that doesn't hold is no fault."""
    done = subprocess.run([str(program), *map(str, words)], capture_output=True, text=True)
    if done.returncode not in (0, 1) or done.stderr:
        raise Wrong(f"{' '.join(map(str, words))}: status {done.returncode}, {done.stderr.strip()}")
    return done.stdout


def drawn(program, entry, seed):
    """The outcomes that drawn runs give, each with the tokens of the first of them."""
    length = entry.length()
    entry.ran += RUNS * length
    text = output(program, "try", entry.path, "--seed", seed, "--runs", RUNS, "--length", length)
    found = {}
    for line in text.splitlines()[:-1]:
        counted, _, tokens = line.partition(" ;")
        equations = counted.split()[1:]
        if [equation.partition("=")[0] for equation in equations] != [left for left, _ in entry.test.lefts]:
            raise Wrong(f"{entry.name}: the outcome {counted!r} has other observed locations")
        values = tuple(int(equation.partition("=")[2]) for equation in equations)
        found[values] = schedules.read(f"{schedules.HEAD_LINE}\n{tokens}")
    return found


@contextmanager
def schedule_of(events):
    """The path of a schedule that has these events."""
    with tempfile.NamedTemporaryFile("w", suffix=".schedule") as file:
        file.write(schedules.written(events))
        file.flush()
        yield file.name


def outcome(program, entry, events):
    """The outcome that a schedule gives, or None where it doesn't finish the test."""
    entry.ran += len(events)
    with schedule_of(events) as schedule:
        return shown(entry, output(program, "run", entry.path, schedule))


def table():
    """What the table of the shelf's README has, by test: the cell of the outcomes with a witness, and the
    outcomes that a source excludes."""
    row = re.compile(r"\| \[[^]]*\]\([a-z-]*/(.*)\.litmus\) \|[^|]*\|([^|]*)\|([^|]*)\|")
    rows = filter(None, map(row.fullmatch, (SHELF / "README.md").read_text().splitlines()))
    return {row[1]: (row[2].strip(), outcomes_in(row[3])) for row in rows}


def names(cell, outcomes):
    """Whether a cell names these outcomes: each of them, their number, or `all N` where no other can be made of their values."""
    counted = re.fullmatch(r"(all )?(\d+)", cell)
    if not counted:
        return outcomes_in(cell) == set(outcomes)
    every = math.prod(len(set(values)) for values in zip(*outcomes))
    return int(counted[2]) == len(outcomes) and (not counted[1] or every == len(outcomes))


def outcomes_in(cell):
    return {tuple(map(int, values.split("-"))) for values in re.findall(r"`([0-9-]+)`", cell)}


def settled(work, entry):
    """What the work on a test answers, or what went wrong."""
    try:
        return work(entry)
    except (Wrong, Fault, OSError, ValueError, IndexError, form.FormError) as error:
        return Wrong(f"{entry.name}: {error}")


def program_and_tests(words):
    """The program that the words name first, or the one that ./ztso runs, and the tests that they name, or all."""
    named = words[0] if words and (os.sep in words[0] or Path(words[0]).is_file()) else None
    program, words = chosen.program(named), words[named is not None:]
    entries = [Entry(path) for path in sorted(SHELF.glob("*/*.litmus"))]
    return program, [entry for entry in entries if not words or entry.name in words]
