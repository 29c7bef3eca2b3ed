"""Runs each test of the shelf on threads, twenty times, and asks that no run shows an outcome without a
witness in litmus/, that `run` with the schedule that was printed answers the same, and that at most one run
in a hundred doesn't finish.

tests/shelf threads [--runs N] [--turns T] [--busy] [PROGRAM] [TEST ..]

PROGRAM is the one that ./ztso runs unless it is named; TEST is a name like sb, and all are taken if none
is named. The schedule has to be in canonical form, and `run` has to print the same state and verdict and
end with the same status. A table lists for each test how often each outcome came; a run that didn't finish
has none. On a busy machine more runs don't finish: --busy leaves out what is asked of them. The last
line is `N passed, M failed`, if the share of unfinished runs counts as one more.
"""

import subprocess
from collections import Counter
from concurrent.futures import ThreadPoolExecutor

import shelf_parts as shelf
from shelf_parts import schedules

RUNS = 20


def ran(program, *words):
    """The status of a run of the program, and what it writes."""
    done = subprocess.run([str(program), *map(str, words)], capture_output=True, text=True)
    if done.stderr:
        raise shelf.Wrong(f"{' '.join(map(str, words))}: status {done.returncode}, {done.stderr.strip()}")
    return done.returncode, done.stdout


def one_run(program, entry, options):
    """The outcome of one run on threads, or None where it didn't finish."""
    status, text = ran(program, "threads", entry.path, *options)
    begin = text.index("hart ")
    schedule, answer = text[:begin], text[begin:]
    events = schedules.read(schedule)
    if schedules.written(events) != schedule:
        raise shelf.Wrong(f"{entry.name}: the schedule isn't canonical: {schedule!r}")
    with shelf.schedule_of(events) as file:
        again = ran(program, "run", entry.path, file)
    if again != (status, answer):
        raise shelf.Wrong(f"{entry.name}: run answers {again}, threads {(status, answer)}, by {schedule!r}")
    return shelf.shown(entry, answer)


def outcomes(program, entry, runs, options):
    """How often each outcome came in so many runs on threads, each of which has a witness. None stands for
    the runs that didn't finish."""
    seen = Counter(one_run(program, entry, options) for _ in range(runs))
    strange = set(seen) - {None, *entry.witnesses()}
    if strange:
        raise shelf.Wrong(f"{entry.name}: no witness of {strange}")
    return seen


def row(entry, seen):
    """A test's line of the table."""
    stand = sorted(entry.witnesses())
    counts = [f"{seen[values]} x {'-'.join(map(str, values))}" for values in stand if seen[values]]
    return f"{entry.name:24} {seen[None]} unfinished, {len(counts)} of {len(stand)} outcomes: {', '.join(counts)}"


def main(words):
    runs, options, busy = RUNS, [], False
    if words[:1] == ["--runs"]:
        runs, words = int(words[1]), words[2:]
    if words[:1] == ["--turns"]:
        options, words = words[:2], words[2:]
    if words[:1] == ["--busy"]:
        busy, words = True, words[1:]
    program, entries = shelf.program_and_tests(words)
    failed = unfinished = shown = stand = 0
    with ThreadPoolExecutor(2) as pool:
        work = pool.map(lambda entry: shelf.settled(lambda it: outcomes(program, it, runs, options), entry), entries)
        for entry, seen in zip(entries, work):
            stand += len(entry.witnesses())
            if isinstance(seen, shelf.Wrong):
                print(seen, flush=True)
                failed += 1
                continue
            print(row(entry, seen), flush=True)
            unfinished, shown = unfinished + seen[None], shown + len(set(seen) - {None})
    passed, made = len(entries) - failed, runs * len(entries)
    print(f"{shown} of {stand} outcomes seen in {made} runs, {unfinished} of them unfinished")
    if not busy:
        few = unfinished * 100 <= made
        passed, failed = passed + few, failed + (not few)
    print(f"{passed} passed, {failed} failed")
    return 1 if failed or not entries else 0
