"""Shrinks the witnesses of the shelf, or what `ztso try` shows of its tests: prints for each schedule how many
events it has, how many of them `ztso shrink` leaves, and how many the outcome's witness has.

tests/shelf shrink [--try] [PROGRAM] [TEST ..]

PROGRAM is the one that ./ztso runs unless it is named; TEST is a name like sb, and all are taken if none
is named. With `--try` the schedules are those that 100,000 drawn runs of each test show, one for each outcome.
It fails if a shrink doesn't give the schedule's outcome, isn't a part of the schedule, or still gives the
outcome without one of its events; and with `--try` if a test without a jump back is left with more than two
events above the witness.
"""

import re

import shelf_parts as shelf
from shelf_parts import schedules


def shrunk(program, entry, events):
    """The events that `shrink` leaves."""
    with shelf.schedule_of(events) as schedule:
        return schedules.read(shelf.output(program, "shrink", entry.path, schedule))


def is_part(part, whole):
    """Whether one list is the other with some events left out."""
    left = iter(whole)
    return all(event in left for event in part)


def has_loop(entry):
    """Whether a hart of the test may jump back: a branch or a jump names a label of a line above, or a distance."""
    seen = set()
    for cell in re.split(r"[|;]", entry.path.read_text().partition("}")[2]):
        label, _, rest = cell.strip().rpartition(":")
        target = rest.split(",")[-1].split()[-1:] if rest.split()[:1] and rest.split()[0][0] in "bj" else []
        if target and (target[0] in seen or target[0].startswith("-")):
            return True
        seen.add(label.strip())
    return False


def measured(program, entry, values, events):
    """The number of events that are left of a schedule, and what is wrong with them."""
    part = shrunk(program, entry, events)
    name = entry.case_name(values)
    wrong = []
    witness = entry.witnesses().get(values)
    if witness and len(part) > len(witness) + 2 and not has_loop(entry):
        wrong.append(f"{name}: more than two events above the witness")
    if shelf.outcome(program, entry, part) != values:
        wrong.append(f"{name}: the shrink has another outcome")
    if not is_part(part, events):
        wrong.append(f"{name}: the shrink isn't a part of the schedule")
    wrong += [f"{name}: the shrink's event {at} can be left out" for at in range(len(part))
              if shelf.outcome(program, entry, part[:at] + part[at + 1:]) == values]
    return len(part), wrong


def main(words):
    tries = words[:1] == ["--try"]
    program, entries = shelf.program_and_tests(words[tries:])
    rows = [(entry, values, events) for entry in entries
            for values, events in sorted((shelf.drawn(program, entry, shelf.SEED) if tries
                                          else entry.witnesses()).items())]
    before = after = shorter = failed = 0
    print(f"{'outcome':40} {'events':>6} {'left':>5} {'witness':>8}")
    answers = shelf.answers("shrink", lambda *row: measured(program, *row), rows)
    for (entry, values, events), (left, wrong) in zip(rows, answers):
        print(f"{entry.case_name(values):40} {len(events):6} {left:5} {len(entry.witnesses().get(values, [])):8}")
        for line in wrong:
            print(line)
        before, after = before + len(events), after + left
        shorter, failed = shorter + (left < len(events)), failed + bool(wrong)
    print(f"{len(rows)} schedules of {before} events, {after} left, {shorter} shorter, {failed} failed")
    return 1 if failed or not rows else 0
