"""Runs a test on a core, has ztso judge each run, and compares what a record can't say."""

import tempfile
from collections import Counter
from dataclasses import dataclass, field
from pathlib import Path

from bring_parts import Refused
from bring_parts.witnessed import Entry
from core_log_parts import faults, landings, log, record
from core_log_parts.checked import differences, last_state
from core_log_parts.opening import opening
from faults import Fault

from . import Wrong, bench, explaining, judge, keeping


@dataclass
class Asked:
    """What a test is run with."""
    bench: Path
    program: Path
    seed: int = 1
    runs: int = 1
    order: str = record.ORDERS[0]
    buffer: int = 4
    registers: bool = False
    keep: Path = None
    # whether the landings of the log, and the last state, are left aside
    no_landings: bool = False


@dataclass
class Report:
    """What came of a test's runs. The kinds of faults are `refused`, `unfinished`, `cut`, `state`, `drain`,
    `order`, `code`, `outcome` and `register`."""
    name: str
    runs: int = 0
    failed: int = 0
    events: int = 0
    records: set = field(default_factory=set)
    outcomes: Counter = field(default_factory=Counter)
    witnessed: set = field(default_factory=set)
    faults: Counter = field(default_factory=Counter)
    given_up: int = 0
    first: dict = field(default_factory=dict)  # of each kind of fault the first one, in words

    def add(self, kind, seed, words):
        self.faults[kind] += 1
        self.first.setdefault(kind, f"{self.name}, run {seed}: {words()}")


def check_run(report, asked, entry, test, run, events, line):
    """Notes what is wrong with a run, given the line of its judgement."""
    text, path = record.text(events), entry.path
    if asked.no_landings:
        if line not in (judge.ACCEPTED, judge.UNFINISHED):
            report.add("refused", run.seed, lambda: line)
        return
    found = list(faults.faults(run, test, events, asked.order))
    for note in {note.kind: note for note in reversed(found)}.values():
        report.add(note.kind, run.seed, lambda note=note: note.text)
    if line not in (judge.ACCEPTED, judge.UNFINISHED):
        report.add("refused", run.seed, lambda: explaining.refused(asked, path, events, line))
        return
    # where a hart stopped, no test is finished
    if line == judge.UNFINISHED and all(event.name != "stopped" for event in events):
        report.add("unfinished", run.seed, lambda: "the record is accepted, and doesn't finish the test")
    wrong = differences(run.state, last_state(asked.program, path, text, asked.buffer))
    if wrong:
        report.add("state", run.seed, lambda: "accepted, but " + "; ".join([*wrong, *explaining.register(asked, path, events)]))
    elif asked.registers and (different := explaining.register(asked, path, events)):
        report.add("register", run.seed, lambda: different[0])
    if line == judge.ACCEPTED:
        values = judge.outcome(asked.program, entry, text, asked.buffer)
        report.outcomes[values] += 1
        if report.witnessed and values not in report.witnessed:
            report.add("outcome", run.seed, lambda: f"the outcome {'-'.join(map(str, values))} has no witness")


def checked(asked, path):
    """The report of a test's runs."""
    try:
        return report_of(asked, path)
    except (Refused, Fault, OSError, UnicodeDecodeError, log.LogError) as error:
        raise Wrong(f"{path}: {getattr(error, 'strerror', None) or error}") from error


def events_of(asked, run, test):
    """The events of a run; without the log's landings where these are left aside."""
    if asked.no_landings:
        run.steps, run.has_drains = [step for step in run.steps if not isinstance(step, log.Drained)], False
    try:
        return record.events(run, test, asked.order, asked.buffer)
    except landings.TooLong:
        return None


def report_of(asked, path):
    """The report, where nothing keeps the test from being run."""
    entry, test = Entry(Path(path)), opening(asked.program, path)
    report = Report(entry.name, witnessed=set(entry.witnesses()))
    with tempfile.NamedTemporaryFile("w", suffix=".steps") as steps:
        steps.write(test.text)
        steps.flush()
        lines = bench.log_of(asked.bench, steps.name, asked.seed, asked.runs)
    found = [(run, events_of(asked, run, test)) for run in log.runs(lines)]
    ends = [run.line - 1 for run, _ in found[1:]] + [len(lines)]
    # of a run that the search for landings gave up nothing is said
    report.given_up = sum(events is None for _, events in found)
    found = [(run, events or []) for run, events in found]
    if len(found) != asked.runs:
        raise Wrong(f"{asked.bench} wrote the logs of {len(found)} runs, not of {asked.runs}")
    answers = judge.judge(asked.program, entry.path, [record.text(events) for _, events in found], asked.buffer)
    for (run, events), line, end in zip(found, answers, ends):
        before, known = report.faults.total(), set(report.first)
        check_run(report, asked, entry, test, run, events, line)
        if asked.keep and (new := report.first.keys() - known):
            kept = keeping.keep(asked, entry, test, run, lines[run.line - 1:end], events, line)
            report.first[max(new)] += f"\n{kept}"
        report.runs += 1
        report.failed += report.faults.total() > before
        report.events += len(events)
        report.records.add(record.text(events))
    judge.ask.cache_clear()
    return report
