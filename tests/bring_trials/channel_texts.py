"""Litmus texts of channels: a schedule of a channel has the same reports in its text, and what else tools/channel-text says."""

import random
import subprocess
import tempfile
from pathlib import Path

from bring_parts import ROOT, program_of
from bring_trials.counting import run, write

RINGS, LISTS, EVENTS = ROOT / "examples/rings", "7 8\n\n4294967295\n", 900
OWN = ["--sender", RINGS / "fastforward-sender.asm", "--receiver", RINGS / "fastforward-receiver.asm"]
# a kind, the slots, and further words
WAYS = (("lamport", 2, []), ("lamport", 3, ["--base", 64, "--stride", 40]), ("cached", 2, []), ("fastforward", 1, []), ("fastforward", 2, ["--base", 4]),
        ("own", 2, OWN))
# words and lists that are refused, with a part of what is said
REFUSED = ((["other", 2], "1\n", "`other` is no KIND: it is lamport, fastforward, cached or own"), (["lamport", 0], "1\n", "a ring has a slot"),
           (["lamport", 2, "--stride", 20], "1\n", "24 bytes apart or more"), (["lamport", 2, "--base", 2], "1\n", "begin at multiples of 4"),
           (["lamport", 2], "1\n0\n", "line 2 of the lists: `0` is no word"), (["lamport", 2], "1\t2 x\n", "line 1 of the lists: `x` is no word"),
           (["own", 2], "1\n", "own needs both"), (["lamport", 2, *OWN], "1\n", "go with own"), (["lamport", 2], "1 " * 1020, "a text names 1024 at most"),
           (["own", 2, "--sender", RINGS / "lamport-receiver.asm", "--receiver", RINGS / "lamport-receiver.asm"], "1\n", "a sender asks for its next word by"),
           (["lamport", 2], "1\n" * 64, "there are 64 lists"), (["lamport", 2, ROOT / "README.md"], "1\n", "refused 27"))


def schedule(seed):
    """A drawn schedule, in bursts, with events of a hart that isn't there."""
    drawn = random.Random(seed)
    tokens = [f"{drawn.choice('aaal')}{drawn.randrange(4)}*{drawn.randrange(1, 30)}" for _ in range(EVENTS // 15)]
    return f"ztso-schedule 1\n{' '.join([*tokens, 'a9*3'])}\n"


def reports(program, *words, text=""):
    """What a command prints of reports, each without what `replay` has before it."""
    done = subprocess.run(list(map(str, [program, *words])), input=text, capture_output=True, text=True, check=True)
    lines = [line.split(" ") for line in done.stdout.splitlines()]
    return [(line[0], *line[len(line) - (2 if line[0] == "took" else 1):]) for line in lines if line[0] in ("took", "closed")]


def part(count, program):
    program = program_of(program)
    taken = 0
    with tempfile.TemporaryDirectory() as folder:
        for number, (kind, slots, words) in enumerate(WAYS):
            for seed in range(4):
                file, text = write(folder, "drawn.schedule", schedule(10 * number + seed)), Path(folder, "channel.litmus")
                status, printed, error = run("channel-text", kind, slots, file, *words, "-o", text, text=LISTS)
                wanted = reports(program, "channel", kind, slots, file, *words, text=LISTS)
                came = reports(program, "replay", text, file) if status == 0 else error
                taken += len(wanted)
                count.told(f"reports of {kind} with {slots} slots, {words[:1]}, seed {seed}", came == wanted, f"{came}, and {wanted} is wanted")
                count.told("events of harts that aren't there", error.endswith("do nothing: 3 of hart 9; the harts are 0 to 3\n"), error)
        count.told("some words are taken", taken > 20, taken)
    for words, lists, said in REFUSED:
        status, printed, error = run("channel-text", *words, text=lists)
        count.told(f"channel-text {words}, of {lists[:20]!r}, is refused", (status, printed) == (2, "") and said in error, f"{status} {error}")
