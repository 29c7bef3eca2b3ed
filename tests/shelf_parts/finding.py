"""Looks with `ztso find` for each outcome of the shelf: for those that have a witness, and for those that a source
excludes by the table of litmus/README.md. It prints how long the schedules are that it found.

tests/shelf find [PROGRAM] [TEST ..]

PROGRAM is the one that ./ztso runs unless it is named; TEST is a name like sb, and all are taken if none is named.
It fails if an outcome with a witness isn't found, or by a schedule that is longer than the witness or has another
outcome, and if one is found that a source excludes.
"""

import re
import subprocess
import tempfile

import shelf_parts as shelf
from shelf_parts import schedules

CONDITION = re.compile(r"^\s*(?:~exists|exists|forall)\b", re.MULTILINE)


def asking(entry, values):
    """The test's text, whose condition is that the observed locations have these values."""
    text = entry.path.read_text()
    front = text[:list(CONDITION.finditer(text))[-1].start()]
    equations = (f"{left}={value}" for (left, _), value in zip(entry.test.lefts, values))
    return f"{front}\nexists (" + " /\\ ".join(equations) + ")\n"


def found(program, entry, values):
    """The events that `find` writes, or None where it finds none."""
    with tempfile.NamedTemporaryFile("w", suffix=".litmus") as file:
        file.write(asking(entry, values))
        file.flush()
        done = subprocess.run([str(program), "find", file.name], capture_output=True, text=True)
    if done.returncode == 0 and not done.stderr:
        return schedules.read(done.stdout)
    if done.returncode == 1 and not done.stdout and re.fullmatch(r"ztso: all [0-9]+ states seen, none shows it\n", done.stderr):
        return None
    raise shelf.Wrong(f"{entry.case_name(values)}: status {done.returncode}, {done.stderr.strip()}")


def measured(program, entry, values, witness):
    """How many events were found, and what is wrong with them."""
    events = found(program, entry, values)
    if witness is None:
        return 0, ["was found, and a source excludes it"] * (events is not None)
    if events is None:
        return 0, ["wasn't found"]
    wrong = ["has a longer schedule than the witness"] * (len(events) > len(witness))
    return len(events), wrong + ["has a schedule of another outcome"] * (shelf.outcome(program, entry, events) != values)


def main(words):
    program, entries = shelf.program_and_tests(words)
    table = shelf.table()
    rows = [(entry, values, witness) for entry in entries for values, witness in sorted(entry.witnesses().items())]
    rows += [(entry, values, None) for entry in entries for values in sorted(table.get(entry.name, ((), ()))[1])]
    answers = shelf.answers("find", lambda *row: measured(program, *row), rows)
    failed = [f"{entry.case_name(values)} {each}" for (entry, values, _), (_, wrong) in zip(rows, answers) for each in wrong]
    shown = [(length, len(witness)) for (*_, witness), (length, _) in zip(rows, answers) if witness is not None]
    print("\n".join([*failed, f"{len(shown)} outcomes in {sum(length for length, _ in shown)} events, the witnesses have "
                     f"{sum(length for _, length in shown)}; {len(rows) - len(shown)} excluded outcomes; {len(failed)} failed"]))
    return 1 if failed or not rows else 0
