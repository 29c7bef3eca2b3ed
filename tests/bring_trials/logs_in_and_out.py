"""Logs of cores that several processes convert, and tables that become logs of herd's form, beyond what cases have."""

import json
import os
import tempfile
import xml.etree.ElementTree
from pathlib import Path
from types import SimpleNamespace
from unittest import mock

from bring_parts import ROOT, Refused, logs, program_of, texts
from bring_trials.counting import run, write
from core_log_parts import converting, log
from core_log_parts.opening import opening

TEST = ROOT / "litmus/message-passing/mp.litmus"
LOG = (ROOT / "examples/core/logs/load_retires_late.log").read_text()
RUNS = 40
# a table of `ztso try`, the condition, and lines of the log that is made of it. 2^31 - 1 is the largest number that isn't negative as a word
TEXT = "RISCV T\n{\n0:x6=x;\n}\n P0          ;\n lw x5,0(x6) ;\n%s\n"
WRITTEN = [
    ("3 x=1073741824 ;\n2 x=2147483647 ;\n1 x=2147483648 ;\nunfinished 0\n", "exists (x=0)",
     ["3     :>x=1073741824;", "2     :>x=2147483647;", "1     :>x=-2147483648;", "Observation T Never 0 6"]),
    ("unfinished 5\n", "forall (x=0)", ["Test T Required", "Histogram (0 states)", "Ok", "Positive: 0, Negative: 0",
                                        "Condition forall (x=0) is validated", "Observation T Never 0 0"]),
    ("unfinished 5\n", "exists (x=0)", ["Test T Allowed", "No", "Condition exists (x=0) is NOT validated"]),
    ("unfinished 5\n", "~exists (x=0)", ["Test T Forbidden", "Ok", "Condition ~exists (x=0) is validated"]),
    ("4 x=0 ;\nunfinished 0\n", "~exists (x=0)", ["4     *>x=0;", "No", "Positive: 0, Negative: 4", "Observation T Always 4 0"]),
    ("4 x=0 ;\nunfinished 0\n", "forall (x=0)", ["4     *>x=0;", "Ok", "Positive: 4, Negative: 0", "Observation T Always 4 0"]),
]


def several(count, program):
    """A long log comes to the same by several processes: records, faults by their lines, skipped words, and what is refused."""
    test = opening(program_of(program), TEST)
    asked = SimpleNamespace(log="core", order="performed", run=None, buffer=4, check=True)
    # the cycles of each run are others, one has a fault, and two have a word that is none of a log's
    runs = [LOG.replace("run 137", f"run {number}\nhello" if number in (3, 30) else f"run {number}").replace(
        "drain 8", f"drain {8 + number}") for number in range(RUNS)]
    runs[17] = runs[17].replace("end 57", "timeout 57")
    for name, text, wanted in (("a log", "".join(runs), None), ("a log with a bad line", "".join([*runs, "drain x\n"]), f"line {17 * RUNS + 3}: `drain` has")):
        made = []
        for longest in (1 << 30, 1):
            skipped, found = {}, []
            with mock.patch.multiple(converting, LONG=longest), mock.patch.object(os, "sched_getaffinity", lambda _: {0, 1, 2}):
                try:
                    found.extend(converting.made_of_log(text, test, asked, skipped))
                except (Refused, log.LogError) as refused:
                    found.append(str(refused))
            made.append((found, skipped))
        count.told(f"{name} by one process and by three", made[0] == made[1] and made[0][1]["hello"][1] == 2, f"{made[1]}")
        last = made[1][0][-1]
        count.told(f"the last of {name}", last.startswith(wanted) if wanted else last.seed == RUNS - 1, str(last))
    parts = [begin for begin, _ in converting.parts_of("".join(runs), 8)]
    count.told("parts of a log", len(parts) == 8 and all("".join(runs)[begin:].startswith("run ") for begin in parts), str(parts))


def in_order(count, program):
    """Runs whose cycles are in one order have one record, and those in another order their own."""
    test = opening(program_of(program), TEST)
    asked = SimpleNamespace(log="core", order="performed", run=None, buffer=4, check=False)
    late = LOG.replace("run 137", "run 138").replace("drain 4 0", "drain 5 0")
    other = LOG.replace("run 137", "run 139").replace("f 0 00000000 00000000 2\n", "f 0 00000000 00000000 7\n")
    made = [each.text for each in converting.made_of_log(LOG + late + other, test, asked, {})]
    count.told("runs in one order", made[0] == made[1] != made[2] and len(made) == 3, "\n".join(made))


# of texts, by a change of sb.litmus: whether what it asks holds, what is answered, and a part of the line
ASKED = (("", "", True, "shown", '"schedule": "a0*2 a1*2 l0 l1"'), ("exists", "~exists", False, "shown", '"asked": "~exists ('),
         ("1:x7=0)", "1:x7=5)", False, "not shown", '"states": '), ("exists (0:x7=0", "~exists (0:x7=5", True, "not shown", '"states": '),
         ("exists (0:x7=0", "forall (0:x7=0", False, "shown", '"schedule": '), ("lw x7", "lwx x7", None, "refused 24 at line 9", '"place": {"line": 9}'))


def for_ci(count, program):
    """Answers as lines of JSON and in JUnit's form."""
    right, late = (ROOT / "litmus/store-buffering/sb.litmus").read_text(), ROOT / "examples/core/logs/load_retires_late.log"
    with tempfile.TemporaryDirectory() as folder:
        for number, (old, new, *_) in enumerate(ASKED):
            write(folder, f"{number}.litmus", right.replace(old, new, 1) if old else right)
        report = Path(folder, "report.xml")
        status, printed, error = run("for-ci", "find", folder, "--junit", report, "--program", program)
        lines = printed.splitlines()
        for line, (old, new, passed, answer, part_of) in zip(lines, ASKED):
            made = json.loads(line)
            count.told(f"for-ci of {new or 'sb.litmus'}", (made["passed"], made["answer"]) == (passed is True, answer) and part_of in line, line)
        suite = xml.etree.ElementTree.parse(report).getroot()
        kinds = [[part.tag for part in case] for case in suite]
        wanted = [[] if passed else ["error" if passed is None else "failure"] for _, _, passed, _, _ in ASKED]
        good = (status, len(lines), kinds, suite.get("failures"), suite.get("errors")) == (2, len(ASKED), wanted, "3", "1")
        count.told("for-ci's status and report", good, f"{status} {printed}{error}{report.read_text()}")
    records = "".join(run("core-log-to-record", TEST, "--order", order, "--program", program, text=late.read_text())[1] for order in ("performed", "retired"))
    status, printed, error = run("for-ci", "check", TEST, "--program", program, text=records)
    made = [json.loads(line) for line in printed.splitlines()]
    good = status == 1 and [each["passed"] for each in made] == [True, False] and made[1]["place"] == {"event": 4, "line": 6}
    count.told("for-ci of records", good, printed + error)


def of_folders(count, program):
    """tools/allowed takes a folder's texts that the log names, passes over the others, and names the tests that it found no text of."""
    made_up = ROOT / "examples/logs/made-up.log"
    for folder, wanted, last, missing in (("litmus", 1, "8 outcomes: 7 shown, 1 not shown", 0),
                                          ("litmus/store-buffering", 3, "4 outcomes: 4 shown, 0 not shown; 1 of 2 tests not looked at", 1)):
        status, printed, error = run("allowed", made_up, ROOT / folder, "--program", program)
        good = status == wanted and printed.splitlines()[-1] == last and printed.count("not looked at: MP\n") == missing
        count.told(f"allowed made-up.log {folder}", good and "texts passed over" in error, f"{status} {printed}{error}")


def part(count, program):
    for_ci(count, program_of(program))
    of_folders(count, program)
    several(count, program)
    in_order(count, program)
    for table, condition, wanted in WRITTEN:
        text = TEXT % condition
        made = logs.of_table(texts.read(text, "t.litmus"), table).splitlines()
        count.told(f"the log of {table!r} with {condition}", all(line in made for line in wanted), "\n".join(made))
