"""Draws channels, runs each on harts (examples/bare-metal/on-harts), and checks that of each sender exactly its
list was taken, in order, and that it was closed once, after that. `ztso channel --finish` has to report the same
of each sender.

tests/rings on-harts [--seed S] [--count N] [--most M] [--kind KIND ..] [--program PROGRAM] [OPTIONS OF on-harts]

N channels (20) are drawn, of each KIND, which is every ring, by turns: 1 to 7 senders, rings of 1 or 2 to 16 slots,
lists of up to M words (4,000). PROGRAM is the one that ./ztso runs unless it is named. A channel that fails is printed;
the last line is `N passed, M failed`. It needs what examples/bare-metal/README.md lists.
"""

import argparse
import random
import re
import subprocess
import sys
import tempfile
from pathlib import Path

from kit import chosen
from ring_kinds import RINGS

from . import ROOT

ON_HARTS = ROOT / "examples/bare-metal/on-harts"


def drawn(draw, kind, most):
    """A ring size and lists."""
    slots = draw.choice((RINGS[kind].least, RINGS[kind].least + 1, 3, 5, 8, 16))
    lists = []
    for _ in range(draw.randrange(1, 8)):
        words = draw.choice((0, 1, draw.randrange(10), draw.randrange(100), draw.randrange(most), most))
        lists.append([draw.choice((1, 2, 2**32 - 1, draw.randrange(1, 2**32))) for _ in range(words)])
    return slots, lists


def by_sender(reports, senders):
    """What was reported of each sender, or None where a line is no report of one."""
    found = [[] for _ in range(senders)]
    for report in reports:
        match = re.fullmatch(r"took (\d+) (\d+)|closed (\d+)", report)
        sender = int(match[1] or match[3]) if match else senders
        if sender >= senders:
            return None
        found[sender].append(int(match[2]) if match[1] else "closed")
    return found


def wrong_with(command, text, lists):
    """Why a command's reports of these lists are wrong, or None."""
    done = subprocess.run(list(map(str, command)), input=text, capture_output=True, text=True)
    if done.returncode != 0:
        return f"status {done.returncode}: {done.stderr.strip()}"
    if by_sender(done.stdout.splitlines(), len(lists)) != [[*words, "closed"] for words in lists]:
        return "the reports aren't each list, in order, and one closing after it"
    return None


def main(words):
    options = argparse.ArgumentParser(usage=__doc__)
    for name, value in (("--seed", 1), ("--count", 20), ("--most", 4000)):
        options.add_argument(name, type=int, default=value)
    options.add_argument("--kind", nargs="+", choices=RINGS, default=sorted(RINGS))
    options.add_argument("--program")
    asked, rest = options.parse_known_args(words)
    program = chosen.program(asked.program)
    if not program.exists():
        sys.exit(f"rings on-harts: no {program}")
    failed = words = senders = 0
    with tempfile.NamedTemporaryFile("w") as schedule:
        schedule.write("ztso-schedule 1\n")
        schedule.flush()
        for number in range(asked.seed, asked.seed + asked.count):
            kind = asked.kind[number % len(asked.kind)]
            slots, lists = drawn(random.Random(number), kind, asked.most)
            text = "".join(" ".join(map(str, words)) + "\n" for words in lists)
            for command in ([ON_HARTS, *rest, kind, slots],
                            [program, "channel", kind, slots, schedule.name, "--finish"]):
                wrong = wrong_with(command, text, lists)
                if wrong:
                    break
            if wrong:
                failed += 1
                print(f"{kind} {number}, ring {slots}, words {list(map(len, lists))}: {Path(command[0]).name}: {wrong}",
                      flush=True)
            words, senders = words + sum(map(len, lists)), senders + len(lists)
    print(f"{asked.count} channels, {senders} senders, {words} words")
    print(f"{asked.count - failed} passed, {failed} failed")
    return 1 if failed or not asked.count else 0
