"""Round trips: from `try` to a log and from the log to schedules, for the tests of litmus/ and examples/c."""

import os
import runpy
import subprocess
import tempfile
from multiprocessing import get_context
from pathlib import Path

from bring_parts import ROOT, TOOLS, Refused, herd, logs, search, texts
from bring_trials.counting import run

import litmus
from machine import Machine

EXPLORE = runpy.run_path(str(TOOLS / "reference/explore"))
RUNS = 300


def table_of(program, path, test):
    """What `ztso try` prints, and whether the runs show what the test asks."""
    # ten events for each instruction, since most runs then finish
    length = max(20, 10 * sum(map(len, test.codes)))
    done = subprocess.run([program, "try", path, "--seed", "1", "--runs", str(RUNS), "--length", str(length)],
                          stdin=subprocess.DEVNULL, capture_output=True, text=True, check=False)
    return done.stdout, done.returncode == 0


def failures(job):
    """The trials of a test: each one's name, whether it is good, and why not."""
    program, path = job
    text, name = path.read_text(), path.name
    try:
        return [(f"{name}: {what}", good, why) for what, good, why in trials(program, path, text)]
    except (Refused, OSError, ValueError, LookupError) as error:
        return [(name, False, repr(error))]


def trials(program, path, text):
    test = litmus.read(text)
    yield "from-herd leaves it", herd.rewritten(text) == (text, {}), "it was rewritten"
    table, is_shown = table_of(program, path, test)
    log = logs.of_table(texts.read(text, path), table)
    results = logs.read(log)
    yield "its log has one test", len(results) == 1, str(list(results))
    rows = [line.partition(" ;")[0].split(" ") for line in table.split("\n")[:-2]]
    there = [(int(row[0]), [int(each.rpartition("=")[2]) for each in row[1:]]) for row in rows]
    states = next(iter(results.values()))
    back = [(count, [int(value) % (1 << 32) for _, value in state]) for state, count in states.items()]
    yield "the log has the table's states", there == back, f"{there} {back}"
    yield "the log has the table's verdict", is_shown != (" is NOT validated" in log), log
    with tempfile.TemporaryDirectory() as folder:
        file = Path(folder, "log")
        file.write_text(log)
        if states:
            status, told, error = run("allowed", file, path, "--program", program)
            yield "each state of the log is shown", status == 0 and f"{len(states)} shown" in told, told + error
    found = search.outcomes(text)
    reached, _ = EXPLORE["reachable"](test, Machine(test, 4))
    yield "the search has the outcomes of explore", set(reached) == set(found.schedules) and not found.cut, found.told()
    longer = [values for values, events in reached.items() if events_in(found.schedules.get(values, "")) != len(events)]
    yield "the search has the lengths of explore", not longer, str(longer)


def events_in(tokens):
    return sum(int(token.partition("*")[2] or 1) for token in tokens.split())


def part(count, program):
    """All tests, side by side."""
    patterns = ("litmus/*/*.litmus", "examples/c/*.gcc.litmus", "examples/c/*.clang.litmus")
    paths = sorted(path for pattern in patterns for path in ROOT.glob(pattern))
    with get_context("fork").Pool(os.cpu_count()) as pool:
        for rows in pool.imap(failures, [(str(program), path) for path in paths]):
            for row in rows:
                count.told(*row)
