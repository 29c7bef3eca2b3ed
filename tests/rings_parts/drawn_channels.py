"""Runs channels by drawn schedules, and checks that what the receiver reports is clean, by its own
definition of clean: of each sender a prefix of its list, the whole of it if it is reported closed,
and nothing more of it then. It knows no ring and no machine.

tests/rings drawn [--finish] [--seed S] [--count N] [--jobs J] [--kind KIND ..] [PROGRAM]

PROGRAM is the one that ./ztso runs unless it is named, S is 1, N, the number of runs of each kind, 100,000,
J, how many run at a time, the number of cores, and KIND is every ring, of which those that the program
doesn't know are passed over. Each run draws its senders, lists, ring size, capacity and schedule. A run
whose reports aren't clean is printed with all that it was given. The last lines say how much was
reported.

With --finish each run is made twice, the second time with the program's own --finish. Then that has to
report what the first one did, and go on until each list is taken whole and every sender is closed; if
the first run reported that already, nothing more.
"""

import argparse
import os
import random
import subprocess
import tempfile
from concurrent.futures import ProcessPoolExecutor
from pathlib import Path

from kit import chosen
from ring_kinds import RINGS

# runs that one process makes, one after the other
SHARE = 500


def drawn(draw, kind):
    """A channel's lists, ring size, capacity and the tokens of a schedule."""
    senders = draw.choice((1, 1, 2, 2, 3, 5, 8))
    lists = [[draw.choice((1, 2, 7, 2**32 - 1)) for _ in range(draw.randrange(6))]
             for _ in range(senders)]
    ring = draw.choice((RINGS[kind].least, RINGS[kind].least + 1, 4, 9))
    tokens, busy = [], [draw.choice((1, 3, 12, 40)) for _ in range(2 * senders + 2)]
    for _ in range(draw.choice((20, 80, 300))):
        k = draw.randrange(2 * senders + 2)
        # the receiver has a whole round for each sender
        times = draw.randrange(1, busy[k] * (senders if k == 0 else 1) + 1)
        tokens.append(f"{'a' if k <= senders else 'l'}{k % (senders + 1)}*{times}")
    return lists, ring, draw.choice((1, 2, 4, 16)), " ".join(tokens)


def unclean(lists, reports):
    """Why the reports are no clean ones of these lists, or None."""
    taken, closed = [[] for _ in lists], set()
    for report in reports:
        name, *numbers = report.split(" ")
        sender = int(numbers[0])
        if sender >= len(lists):
            return f"{report}: there is no such sender"
        if sender in closed:
            return f"{report}: the sender is closed"
        if name == "took":
            taken[sender].append(int(numbers[1]))
            if taken[sender] != lists[sender][:len(taken[sender])]:
                return f"{report}: that isn't the sender's next word"
        elif taken[sender] != lists[sender]:
            return f"{report}: not all was taken"
        else:
            closed.add(sender)
    return None


def unfinished(lists, before, reports):
    """Why these aren't the reports of a finished channel that reported those before, or None."""
    if reports[:len(before)] != before:
        return "what was reported before is another thing"
    for sender, words in enumerate(lists):
        taken = [report for report in reports if report.startswith(f"took {sender} ")]
        if taken != [f"took {sender} {word}" for word in words]:
            return f"not all of sender {sender} was taken"
        if reports.count(f"closed {sender}") != 1:
            return f"sender {sender} isn't closed"
    return None


def run(program, kind, ring, schedule, capacity, lists, *flags):
    """The reports of a run, and what the program says beside them."""
    done = subprocess.run(
        [program, "channel", kind, str(ring), str(schedule), "--buffer", str(capacity), *flags],
        input="".join(" ".join(map(str, words)) + "\n" for words in lists),
        capture_output=True, text=True)
    said = done.stderr.strip()
    return done.stdout.splitlines(), said or (f"status {done.returncode}" if done.returncode else None)


def share(work):
    """How many words were taken and senders closed in some runs, and what went wrong."""
    program, kind, finish, seed, count = work
    took = closed = 0
    wrong = []
    with tempfile.TemporaryDirectory() as folder:
        schedule = Path(folder) / "drawn.schedule"
        for number in range(seed, seed + count):
            lists, ring, capacity, tokens = drawn(random.Random(f"{kind} {number}"), kind)
            schedule.write_text(f"ztso-schedule 1\n{tokens}\n")
            reports, why = run(program, kind, ring, schedule, capacity, lists)
            why = why or unclean(lists, reports)
            if finish and not why:
                before = reports
                reports, why = run(program, kind, ring, schedule, capacity, lists, "--finish")
                why = why or unclean(lists, reports) or unfinished(lists, before, reports)
            if why:
                wrong.append(f"{kind} run {number}: {why}\n  lists {lists}, ring {ring}, "
                             f"--buffer {capacity}\n  {tokens}")
            took += sum(report.startswith("took") for report in reports)
            closed += sum(report.startswith("closed") for report in reports)
    return took, closed, wrong


def is_known(program, kind):
    """Whether the program has this ring."""
    with tempfile.NamedTemporaryFile("w") as schedule:
        schedule.write("ztso-schedule 1\n")
        schedule.flush()
        done = subprocess.run([program, "channel", kind, str(RINGS[kind].least), schedule.name], input=b"1\n",
                              stdout=subprocess.DEVNULL, stderr=subprocess.DEVNULL)
    return done.returncode == 0


def main(words):
    options = argparse.ArgumentParser(usage=__doc__)
    options.add_argument("--finish", action="store_true")
    options.add_argument("--seed", type=int, default=1)
    options.add_argument("--count", type=int, default=100_000)
    options.add_argument("--jobs", type=int, default=os.cpu_count())
    options.add_argument("--kind", nargs="+", choices=RINGS, default=list(RINGS))
    options.add_argument("program", nargs="?")
    asked = options.parse_args(words)
    program, failed = str(chosen.program(asked.program)), 0
    known = [kind for kind in asked.kind if is_known(program, kind)]
    for kind in asked.kind:
        if kind not in known:
            print(f"{kind}: the program has no such ring")
    for kind in known:
        work = [(program, kind, asked.finish, asked.seed + at, min(SHARE, asked.count - at))
                for at in range(0, asked.count, SHARE)]
        took = closed = 0
        with ProcessPoolExecutor(asked.jobs) as pool:
            for words, ends, wrong in pool.map(share, work):
                took, closed, failed = took + words, closed + ends, failed + len(wrong)
                for line in wrong:
                    print(line)
        print(f"{kind}: {asked.count} runs, {took} words taken, {closed} senders closed")
    print(f"{failed} failed")
    return 1 if failed or not known else 0
