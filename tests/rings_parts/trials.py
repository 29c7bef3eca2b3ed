"""Runs `ztso ring` on right rings and on wrong ones, and holds it against tools/reference.

tests/rings own [--program PROGRAM] [--runs N] [--drawn D] [--seed S]

PROGRAM is the one that ./ztso runs unless it is named. Each line of examples/rings/trials.tsv is run, and D rings (40) whose
programs are those of examples/rings with a line or two changed by chance, by the seed S (1). Each is run with one job and
with three:

- If the runs are clean, the program has to print what the reference prints.
- If one isn't, the schedule that it prints isn't the only right one. So it has to be a part of the earliest unclean
  run by the reference, in canonical form, and no longer than its line allows; it has to run to the breach that is
  printed with it; without any one of its events nothing may be breached; and `ztso channel own` has to take it, and
  report what the reference reports.

- If a changed program is refused, the fault has to be the reference's.

Then each ring of docs/channels.md is run N times (100,000; 0 leaves it out), 400 events each, which has to be clean. The
last line is `N passed, M failed`.
"""

import argparse
import random
import re
import subprocess
import sys
import tempfile
from dataclasses import dataclass, replace
from pathlib import Path

import channels
import rings
import schedules
from faults import Fault
from kit import chosen, parts
from ring_kinds import RINGS

from . import ROOT

FOLDER = ROOT / "examples/rings"
LENGTH, LONG_LISTS = 400, "9 8 7 6 5 4 3 2 1\n7\n"


class Wrong(Exception):
    """What is wrong with an answer of the program."""


def path_of(kind, role):
    """The file of a ring's program."""
    return FOLDER / f"{parts.named(kind, role).replace('_', '-')}.asm"


@dataclass
class Trial:
    """A ring, its lists, and what is drawn of it."""
    name: str
    paths: list  # of the sender and of the receiver
    slots: int
    lists: str
    options: list
    clean: bool = None  # whether all runs should be clean, where that is known
    most: int = 1 << 20  # events of an unclean run's schedule

    @staticmethod
    def of(line):
        """The trial of a line of trials.tsv."""
        sender, receiver, slots, lists, options, most = line.split("\t")
        text = "".join(f"{each}\n" for each in lists.split("/"))
        made = Trial(f"{sender} {receiver} {slots} {options}", [FOLDER / f"{sender}.asm", FOLDER / f"{receiver}.asm"],
                     int(slots), text, options.split(), most == "-")
        return made if made.clean else replace(made, most=int(most))

    @staticmethod
    def drawn(draw, name, folder):
        """A ring with changes, whose programs lie in the folder then."""
        kind, changed = draw.choice(list(RINGS)), draw.choice(parts.ROLES)
        paths = {role: path_of(kind, role) for role in parts.ROLES}
        lines = paths[changed].read_text().splitlines()[1:]
        paths[changed] = folder / f"{name}.asm"
        for _ in range(draw.choice((1, 1, 2))):
            change(draw, lines)
        paths[changed].write_text("".join(f"{line}\n" for line in lines))
        lists = [" ".join(draw.choice("123456789") for _ in range(draw.randrange(5))) for _ in range(draw.choice((1, 1, 2, 3)))]
        length = draw.choice((60, 200, 400))
        options = ["--seed", draw.randrange(2**64), "--runs", 20_000 // length, "--length", length, "--skip", draw.choice((0, 7)),
                   "--buffer", draw.choice((1, 2, 4, 16)), "--base", draw.choice((0, 64)), "--stride", draw.choice((32, 64))]
        return Trial(f"{name}: {kind}, {changed} changed", list(paths.values()), draw.randrange(1, 5),
                     "".join(f"{each}\n" for each in lists), list(map(str, options)))

    def option(self, name, usual):
        return int(self.options[self.options.index(name) + 1]) if name in self.options else usual

    def drawing(self):
        """How many runs there are, and how they are drawn."""
        return self.option("--runs", 0), [*(self.option(name, 0) for name in ("--seed", "--length", "--skip")), "uniform"]

    def codes(self):
        return [rings.program(path.read_text(), role) for path, role in zip(self.paths, parts.ROLES)]

    def place(self):
        return self.option("--base", 0), self.option("--stride", None)

    def rings(self):
        return rings.Rings(self.codes(), self.slots, channels.lists(self.lists), self.option("--buffer", 4), self.place())


def change(draw, lines):
    """Changes a line: it goes, comes twice, changes places with the next one, or has another number or register."""
    at = draw.randrange(len(lines) - 1)
    kind = draw.choice(("gone", "twice", "swapped", "number", "register"))
    if kind == "gone":
        lines[at] = lines[at].partition(":")[0] + ":" if ":" in lines[at].partition("#")[0] else ""
    elif kind == "twice":
        lines.insert(at, lines[at].partition("#")[0].rpartition(":")[2])
    elif kind == "swapped":
        lines[at], lines[at + 1] = lines[at + 1], lines[at]
    else:
        found = list(re.finditer(r"\bx[0-9]+" if kind == "register" else r"(?<![\w.])-?[0-9]+\b", lines[at].partition("#")[0]))
        if found:
            place = draw.choice(found)
            other = draw.choice(("x0", "x5", "x6", "x7", "x8", "x9", "x28") if kind == "register" else
                                ("0", "4", "8", "12", "16", "20", "-4", "2"))
            lines[at] = lines[at][:place.start()] + other + lines[at][place.end():]


def answer(program, words, text):
    """The status and the output of the program."""
    done = subprocess.run([str(program), *map(str, words)], input=text, capture_output=True, text=True, check=False)
    if done.stderr:
        raise Wrong(f"says {done.stderr.strip()}")
    return done.returncode, done.stdout


def same(what, found, wanted):
    if found != wanted:
        raise Wrong(f"{what} is {found!r}, not {wanted!r}")


def is_part(events, whole):
    """Whether the events stand in the whole, in their order."""
    rest = iter(whole)
    return all(event in rest for event in events)


def check_schedule(made, printed, whole, most):
    """The events that are printed of an unclean run."""
    *head, line = printed.splitlines()
    try:
        events = schedules.read("".join(f"{each}\n" for each in head))
    except Fault as fault:
        raise Wrong(f"prints no schedule: {fault.line}") from fault
    same("the output", printed, f"{schedules.written(events)}{line}\n")
    if not is_part(events, whole):
        raise Wrong("the schedule is no part of the earliest unclean run")
    if len(events) > most:
        raise Wrong(f"the schedule has {len(events)} events, and {most} are allowed")
    same("the breach", line, made.judged(events)[1])
    for at in range(len(events)):
        if made.is_unclean(events[:at] + events[at + 1:]):
            raise Wrong(f"the schedule doesn't need its event {at}")
    return events


def check_own(program, trial, events):
    """What `channel own` reports in the run of a schedule."""
    sender, receiver = trial.paths
    place = [word for name in ("--base", "--stride", "--buffer") if name in trial.options
             for word in (name, trial.option(name, None))]
    with tempfile.NamedTemporaryFile("w", suffix=".schedule") as file:
        file.write(schedules.written(events))
        file.flush()
        words = ["channel", "own", trial.slots, file.name, "--sender", sender, "--receiver", receiver, *place]
        status, printed = answer(program, words, trial.lists)
    run = channels.Channel(channels.OWN, trial.slots, channels.lists(trial.lists), trial.option("--buffer", 4), trial.place(),
                           trial.codes())
    for event in events:
        run.run(event)
    same("what `channel own` reports", (status, printed.splitlines()), (0, run.reports))


def check(program, trial):
    """What came of a trial, in words."""
    words = ["ring", *trial.paths, trial.slots, *trial.options]
    try:
        made = trial.rings()
    except Fault as fault:
        return check_refused(program, words, trial.lists, fault)
    status, printed = answer(program, words, trial.lists)
    same("with three jobs the answer", answer(program, [*words, "--jobs", 3], trial.lists), (status, printed))
    whole = next((events for events in rings.drawn(made, *trial.drawing()) if made.is_unclean(events)), None)
    same("whether a run is unclean, by the status,", status, int(whole is not None))
    if whole is None:
        same("the output", printed.splitlines(), rings.trial(made, *trial.drawing())[0])
        if trial.clean is False:
            raise Wrong("no run is unclean, and trials.tsv says that one is")
        return "clean"
    if trial.clean:
        raise Wrong("a run is unclean, and trials.tsv says that none is")
    events = check_schedule(made, printed, whole, trial.most)
    check_own(program, trial, events)
    return f"unclean, by {len(events)} events"


def check_refused(program, words, text, fault):
    """A fault of a changed ring."""
    done = subprocess.run([str(program), *map(str, words)], input=text, capture_output=True, text=True, check=False)
    same("the refusal", (done.returncode, done.stdout, done.stderr), (fault.status, "", f"{fault.line}\n"))
    return fault.line.removeprefix("ztso: ")


def check_long(program, kind, runs):
    """Many runs of a ring that has a theorem."""
    programs = [FOLDER / f"{parts.named(kind, role).replace('_', '-')}.asm" for role in parts.ROLES]
    words = ["ring", *programs, RINGS[kind].least, "--seed", 1, "--runs", runs, "--length", LENGTH, "--jobs", 4]
    status, printed = answer(program, words, LONG_LISTS)
    same("the status", status, 0)
    same("the first line", printed.partition("\n")[0], f"clean {runs} runs")
    return "clean"


def main(words):
    options = argparse.ArgumentParser(usage=__doc__)
    options.add_argument("--program")
    options.add_argument("--runs", type=int, default=100_000)
    options.add_argument("--drawn", type=int, default=40)
    options.add_argument("--seed", type=int, default=1)
    asked = options.parse_args(words)
    program = chosen.program(asked.program)
    if not program.exists():
        print(f"rings own: {program}: no such program", file=sys.stderr)
        return 2
    lines = (FOLDER / "trials.tsv").read_text().splitlines()
    trials = [Trial.of(line) for line in lines if not line.startswith("#")]
    draw, failed = random.Random(asked.seed), 0
    with tempfile.TemporaryDirectory() as folder:
        trials += [Trial.drawn(draw, f"drawn-{number}", Path(folder)) for number in range(asked.drawn)]
        work = [(trial.name, lambda trial=trial: check(program, trial)) for trial in trials]
        work += [(f"{kind}, {asked.runs} runs", lambda kind=kind: check_long(program, kind, asked.runs))
                 for kind in RINGS if asked.runs]
        for name, run in work:
            try:
                print(f"{name}: {run()}", flush=True)
            except Wrong as wrong:
                print(f"{name}: WRONG: {wrong}", flush=True)
                failed += 1
    print(f"{len(work) - failed} passed, {failed} failed")
    return 1 if failed else 0
