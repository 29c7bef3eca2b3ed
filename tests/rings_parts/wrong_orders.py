"""Runs on harts (examples/bare-metal/on-harts) the tables of each ring, and the wrong ones that the
mutants of its crate make of them: does a run show the mistakes that the proof refuses?

tests/rings wrong-orders [KIND ..]

KIND is a ring, and all are run if none is named. Each table runs over several inputs, with one sender. A line
for each counts the unclean runs; a run that doesn't end is cut, and the runs after it are left out. A ring's own
table passes if all of its runs were clean. Whether a wrong table shows its fault is a matter of luck, so only
this is asked of them together: that one at least does. The last line is `N passed, M failed`.
"""

import random
import re
import subprocess
import sys

from kit import parts

from . import ROOT

ON_HARTS = ROOT / "examples/bare-metal/on-harts"
# ring size, words, runs
INPUTS = ((3, 3, 1000), (2, 4000, 20), (16, 4000, 20), (200, 4000, 20))
SECONDS = 5


def shows(kind, mutant, draw):
    """Runs a table over all inputs, prints what came out, and returns whether a fault was seen."""
    name, seen = mutant or "as it is", False
    for slots, count, runs in INPUTS:
        words = " ".join(str(draw.randrange(1, 2**32)) for _ in range(count))
        done = subprocess.run(
            [ON_HARTS, "--runs", str(runs), "--seconds", str(SECONDS), *(["--mutant", mutant] if mutant else []), kind,
             str(slots)], input=words, capture_output=True, text=True)
        found = re.search(r"^# runs (\d+) .* unclean (\d+)$", done.stderr, re.MULTILINE)
        if not found:
            sys.exit(f"rings wrong-orders: {done.stderr.strip()}")
        made, unclean = int(found[1]), int(found[2])
        end = {0: "", 1: "", 2: f", then one was cut after {SECONDS} s"}.get(done.returncode, ", then a hart stopped")
        print(f"{kind}, {name}: ring {slots}, {count} words: {unclean} of {max(made, unclean)} runs unclean{end}",
              flush=True)
        seen |= done.returncode != 0
    return seen


def main(words):
    draw, passed, failed, wrong, shown = random.Random(1), 0, 0, 0, 0
    for kind in words or parts.CRATE:
        unclean = shows(kind, None, draw)
        passed, failed = passed + (not unclean), failed + unclean
        for mutant in parts.mutants(parts.crate_of(kind)):
            wrong += 1
            shown += shows(kind, mutant, draw)
    print(f"{shown} of {wrong} wrong tables showed their fault")
    passed, failed = passed + (shown > 0), failed + (shown == 0)
    print(f"{passed} passed, {failed} failed")
    return 1 if failed else 0
