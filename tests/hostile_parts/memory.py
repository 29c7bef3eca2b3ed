"""Allocations that are refused: the nth, and the nth with every later one."""

import subprocess
from pathlib import Path

from kit import running

from . import examples
from .runs import NO_MEMORY, NO_THREAD, SECONDS, brief

KINDS = ["no memory", "no thread", "own answers", "answers of their own until memory ran out"]
# the most allocations that a command may make
MOST = 20_000


def answer_of_shell(runs, command, variables):
    """What a session's command line answers, with the program alone below the refuser."""
    set_ = " ".join(f"{name}={value}" for name, value in variables.items())
    line = command.replace("./ztso", f"env {set_} {runs.program}")
    try:
        done = subprocess.run(["/bin/bash", "-o", "pipefail", "-c", line], capture_output=True, timeout=SECONDS, stdin=subprocess.DEVNULL)
    except subprocess.TimeoutExpired:
        return "no end", b"", b""
    return done.returncode, done.stderr, done.stdout


def refusals(runs, refuser, answer, own, words, stdin=b""):
    """Runs a command with each of its allocations refused, alone and with all later ones."""
    seen = Path(runs.folder, "seen")
    for later in ("0", "1"):
        for number in range(1, MOST):
            came = answer({"LD_PRELOAD": str(refuser), "REFUSED_ALLOCATION": str(number),
                           "REFUSED_LATER": later, "REFUSAL_SEEN": str(seen)})
            if not seen.exists():
                break
            seen.unlink()
            note = f"allocation {number} refused{', and all later ones' if later == '1' else ''}"
            runs.hold(*judged(runs, came, own, words), brief(came), words, stdin, note)
        else:
            runs.hold("own answers", False, f"{MOST} allocations", words, stdin)


def judged(runs, came, own, words):
    """The kind of an answer, and whether it may be."""
    if came == NO_MEMORY:
        return "no memory", True
    if "threads" in words and came == NO_THREAD:
        return "no thread", True
    if set(examples.INTERACTIVE) & set(words) and came[:2] == NO_MEMORY[:2]:
        return "answers of their own until memory ran out", own[2].startswith(came[2])
    if own is not None:
        return "own answers", came == own
    # where turns aren't few, a run is unfinished only if a thread without memory ended as one that was cut off
    cut_off = "--turns" not in words and came[2].endswith(b"Unfinished\n")
    return "own answers", runs.is_answer_of_threads(words, came) and not cut_off


def part(runs):
    refuser = running.refuser_in(runs.folder)
    if refuser is None:
        runs.hold("own answers", False, "cc can't compile what refuses an allocation", [])
        return
    commands = 0
    # some stand on two pages
    rows = list({(row[0], *row[1].values()): row for row in examples.sessions()}.values())
    # later ones read what these write
    for command, files, _ in rows:
        if " > " in command:
            runs.put(files)
            answer_of_shell(runs, command, {})
    for command, files, page in rows[1::7] if runs.short else rows:
        # one limits memory itself, and in one the program runs twice, which would be refused twice
        if "ulimit" in command or command.count("./ztso ") > 1:
            continue
        runs.put(files)
        words = command.partition("./ztso ")[2].split()
        own = answer_of_shell(runs, command, {})
        # what threads do is another thing each time, except where their test is refused
        if words[0] == "threads" and own[0] in (0, 1):
            runs.hold("own answers", runs.is_answer_of_threads(words, own), brief(own), words)
            own = None
        else:
            runs.hold("own answers", own[1:] == page, f"{brief(own)}, but the page has {page}", words, note=command)
        refusals(runs, refuser, lambda variables: answer_of_shell(runs, command, variables), own, words)
        commands += 1
    rows = list(examples.kinds())
    for words, stdin, files in rows[1::6] if runs.short else rows:
        runs.put(files)
        own = None if words[0] == "threads" else runs.compare("own answers", words, stdin)
        if own is None:
            came = runs.run(words)
            runs.hold("own answers", runs.is_answer_of_threads(words, came), brief(came), words)
        refusals(runs, refuser, lambda variables: runs.run(words, stdin, variables), own, words, stdin)
        commands += 1
    runs.counts(f"memory, {commands} commands, each allocation refused alone and with all later ones", KINDS)
