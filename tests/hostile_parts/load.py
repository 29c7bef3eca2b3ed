"""The largest runs: 64 harts, buffers of 16, 1,048,576 events; and a long session of the debugger."""

import os
import subprocess
import time
from pathlib import Path

import litmus
from machine import Machine, state_text, verdict
from ring_kinds import RINGS
from schedules import read as read_schedule, record_written

from rings_parts import drawn_channels

from .runs import brief, refused

HARTS, BUFFER, EVENTS = 64, 16, 1_048_576
CAPACITY = ["--buffer", str(BUFFER)]
MINUTE = 60
# the largest ring that fits 63 times
LARGEST = 61
# the largest input that is read
INPUT = 1_048_576
KINDS = ["steps", "run", "replay", "move", "channel", "debug"]


def cost(runs, words, stdin):
    """What a run answers, its seconds and its peak bytes, by /usr/bin/time."""
    begun = time.monotonic()
    with open("stdin", "wb") as file:
        file.write(stdin)
    with open("stdin", "rb") as file, open("stdout", "wb") as out:
        done = subprocess.run(["/usr/bin/time", "-o", "peak", "-f", "%M", runs.program, *words], stdin=file, stdout=out,
                              stderr=subprocess.PIPE, timeout=5 * MINUTE)
    seconds = time.monotonic() - begun
    peak = int(Path("peak").read_text().split()[-1]) * 1024
    return (done.returncode, done.stderr, Path("stdout").read_bytes()), seconds, peak


def hold(runs, words, stdin, wanted, note=""):
    came, seconds, peak = cost(runs, words, stdin)
    runs.hold(words[0], came == wanted, f"wanted {brief(wanted)}, came {brief(came)}", words, note=note)
    print(f"  {words[0]}{note}: {seconds:.1f} s, peak {peak / 2**20:.0f} MiB, output {len(came[2])} bytes", flush=True)


def events(runs, harts, count, landings=(1, 4, 16)):
    """The tokens of drawn events, of which each comes some times."""
    tokens, left = [], count
    while left:
        # a loop of four instructions has a store in each
        letter = runs.draw.choice("al")
        times = min(left, runs.draw.choice((1, 3, 16, 60) if letter == "a" else landings))
        tokens.append((letter, runs.draw.randrange(harts), times))
        left -= times
    return " ".join(f"{letter}{hart}*{times}" for letter, hart, times in tokens).encode()


def machine_loads(runs, count):
    """A loop of stores, loads and sums on each hart, by steps, run, replay and move."""
    # sw x5,0(x6); lw x7,0(x8); addi x5,x5,1; jal x0,-12
    cells = ["L: sw x5,0(x6)", "lw x7,0(x8)", "addi x5,x5,1", "j L"]
    names = " | ".join(f"P{hart}" for hart in range(HARTS))
    items = "".join(f"{hart}:x6={4 * (hart % 8)}; {hart}:x8={4 * (hart % 5)};\n" for hart in range(HARTS))
    rows = "".join(" " + " | ".join([cell] * HARTS) + " ;\n" for cell in cells)
    text = f"RISCV LOAD\n{{\n{items}}}\n{names} ;\n{rows}exists (0:x5=0)\n".encode()
    steps = "hart 00532023 00042383 00128293 ff5ff06f\n" * HARTS + "".join(
        f"reg {hart} 6 {4 * (hart % 8)}\nreg {hart} 8 {4 * (hart % 5)}\n" for hart in range(HARTS))
    runs.put({"load.litmus": text})
    # most landings of the second draw find no store, so that its record is no larger than an input may be
    for landings in ((1, 4, 16), (1, 3000)):
        drawn = events(runs, HARTS, count, landings)
        answers = answers_of(litmus.read(text.decode()), drawn)
        hold(runs, ["steps", *CAPACITY], steps.encode() + b"steps " + drawn + b"\n", answers["steps"])
        runs.put({"load.schedule": b"ztso-schedule 1\n" + drawn + b"\n"})
        held_of_schedule(runs, answers, "")
        record = answers["move"][2]
        runs.put({"load.schedule": record})
        if len(record) > INPUT:
            answers = dict.fromkeys(answers, refused(37))
        held_of_schedule(runs, answers, " of what move wrote")


def held_of_schedule(runs, answers, note):
    for command in ("run", "replay", "move"):
        hold(runs, [command, "load.litmus", "load.schedule", *CAPACITY], b"", answers[command], note)


def answers_of(test, drawn):
    """What each command has to answer for drawn events."""
    machine = Machine(test, BUFFER)
    state, done, lines = machine.opening, [], []
    for event in read_schedule(f"ztso-schedule 1\n{drawn.decode()}"):
        outcome, entry, state = machine.step(state, event)
        done.append((event, outcome))
        if entry:
            lines.append(outcome)
    last = state_text(state)
    return {"steps": (0, b"", last.encode()),
            "run": (1, b"", f"{last}{verdict(test, state)}\n".encode()),
            "replay": (0, b"", "".join(f"{line}\n" for line in lines).encode()),
            "move": (0, b"", record_written(done).encode())}


def channel_load(runs, count):
    """63 senders with lists of many words, through the smallest and the largest rings that fit, by turns, with a plan and
    without: the reports are clean by the definition of tests/rings drawn."""
    lists = [[runs.draw.randrange(1, 1 << 32) for _ in range(200)] for _ in range(63)]
    stdin = b"".join(b" ".join(b"%d" % word for word in words) + b"\n" for words in lists)
    drawn, left = [], count
    while left:
        hart, times = runs.draw.choice((0, 0, 0, *range(1, 64))), min(left, runs.draw.choice((1, 20, 400)))
        drawn.append(f"{'a' if runs.draw.random() < 0.7 else 'l'}{hart}*{times}")
        left -= times
    runs.put({"load.schedule": b"ztso-schedule 1\n" + " ".join(drawn).encode()})
    for number, ring in enumerate(RINGS.values()):
        kind, slots = ring.name, str((ring.least, LARGEST)[number % 2])
        words = ["channel", kind, slots, "load.schedule", *CAPACITY]
        before = None
        for flags in ([], ["--finish"]):
            came, seconds, peak = cost(runs, words + flags, stdin)
            reports = came[2].decode().splitlines()
            why = drawn_channels.unclean(lists, reports)
            why = why or flags and drawn_channels.unfinished(lists, before, reports)
            before = reports
            runs.hold("channel", came[:2] == (0, b"") and not why, f"{brief(came)}: {why}", words + flags)
            print(f"  {' '.join(words[:3] + flags)}: {seconds:.1f} s, peak {peak / 2**20:.0f} MiB, "
                  f"{len(reports)} reports", flush=True)


def session(runs, count, backs):
    """A session of `count` events that goes back `backs` times. How many events are left each time is known without a
    machine; the last state is that of their run."""
    text = Path("litmus/own-reads/n6.litmus").read_text()
    drawn = events(runs, 2, count)
    runs.put({"long.litmus": text.encode(), "long.schedule": b"ztso-schedule 1\n" + drawn})
    done, wanted, typed = count, [], ["g"]
    for _ in range(backs):
        depth = runs.draw.choice((1, 10, 1000, 100_000, count))
        depth = runs.draw.randrange(depth + 1)
        done = max(done - depth, 0)
        typed += [f"u {depth}", "t"]
        wanted.append(f"{done}")
        if done == 0 or runs.draw.random() < 0.02:
            typed += ["g", "t"]
            done = count
            wanted.append(f"{done}")
    typed += ["r 0", "r 1"]
    machine = Machine(litmus.read(text), 4)
    state = machine.opening
    for event in read_schedule(Path("long.schedule").read_text())[:done]:
        _, _, state = machine.step(state, event)
    words = ["debug", "long.litmus", "long.schedule"]
    came, seconds, peak = cost(runs, words, "".join(f"{line}\n" for line in typed).encode())
    # of the events' own lines none is a number
    numbers = [line for line in came[2].decode().split("\n") if line.isdigit()]
    last = came[2].decode().endswith(state_text(state).partition("word")[0])
    right = came[:2] == (0, b"") and numbers == wanted and last
    runs.hold("debug", right, f"{came[:2]}, {numbers[:8]}, wanted {wanted[:8]}", words)
    print(f"  debug of {count} events, gone back {backs} times: {seconds:.1f} s, peak {peak / 2**20:.0f} MiB",
          flush=True)


def part(runs):
    if not os.path.exists("/usr/bin/time"):
        print("load: no /usr/bin/time")
        return
    count = EVENTS // 64 if runs.short else EVENTS
    machine_loads(runs, count)
    channel_load(runs, count)
    session(runs, count, 10 if runs.short else 1000)
    runs.counts(f"load of {count} events", KINDS)
