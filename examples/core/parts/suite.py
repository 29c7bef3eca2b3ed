"""Many tests, side by side, and what came of all of them."""

import os
from collections import Counter
from concurrent.futures import ProcessPoolExecutor
from dataclasses import replace
from functools import partial

from bring_parts.witnessed import SHELF

from . import HERE, checking, drawing

# a drawn test has this many times fewer runs than another
FEWER = 7


def cores():
    return len(os.sched_getaffinity(0))


def reports(asked, paths, jobs):
    """The reports of the tests, in their order."""
    with ProcessPoolExecutor(jobs) as pool:
        yield from pool.map(partial(checking.checked, asked), paths)


def groups(asked, paths, drawn, folder, jobs):
    """The name and the reports of each group of tests: those at these paths, or else the shelf's and this folder's
    own; and then as many drawn ones."""
    shelf, own = sorted(SHELF.glob("*/*.litmus")), sorted(HERE.glob("*.litmus"))
    for name, group in [("named", paths)] if paths else [("shelf", shelf), ("own", own)]:
        yield name, reports(asked, group, jobs)
    if drawn:
        fewer = replace(asked, runs=max(1, asked.runs // FEWER))
        yield "drawn", reports(fewer, drawing.write(folder, drawn, asked.seed), jobs)


class Sum:
    """What came of some tests."""

    def __init__(self):
        self.tests = self.runs = self.failed = self.events = self.records = self.seen = self.witnessed = self.given_up = 0
        self.faults, self.first = Counter(), {}

    def add(self, report):
        self.tests += 1
        self.runs += report.runs
        self.failed += report.failed
        self.events += report.events
        self.given_up += report.given_up
        self.records += len(report.records)
        self.seen += len(report.witnessed & report.outcomes.keys())
        self.witnessed += len(report.witnessed)
        self.faults += report.faults
        for kind, words in report.first.items():
            self.first.setdefault(kind, words)

    def line(self):
        outcomes = f", {self.seen} of {self.witnessed} witnessed outcomes" if self.seen else ""
        outcomes += f", {self.given_up} given up" if self.given_up else ""
        kinds = "".join(f", {kind} {count}" for kind, count in sorted(self.faults.items()))
        return (f"{self.tests} tests, {self.runs} runs of {self.events} events in {self.records} different records"
                f"{outcomes}{kinds}")
