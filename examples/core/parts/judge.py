"""Asks ztso whether records are runs of a test, and for the last states of those that are."""

import re
import subprocess
from functools import lru_cache

from bring_parts.witnessed import shown

from . import Wrong

ACCEPTED, UNFINISHED, DIFFERS = "accepted", "unfinished", "refused 38 "
RECORD = "/dev/stdin"


def judge(program, path, records, buffer=4):
    """What `ztso check` says of each record, without its number: `accepted`, `unfinished`,
    `refused 38 at event E line L: OUTCOME, the run has OUTCOME`, or another refusal."""
    output, fault = call(program, ["check", path, "--buffer", buffer], "".join(records))
    if fault:
        raise Wrong(f"{path}: {fault.removeprefix('ztso: ')}")
    return [line.partition(" ")[2] for line in output.splitlines()[:len(records)]]


def event_of(line):
    """The event at which a record is refused by 38, or None."""
    differs = re.match(f"{DIFFERS}at event ([0-9]+) ", line)
    return int(differs[1]) if differs else None


def outcome(program, entry, record, buffer=4):
    """The values of the condition's observed locations at the end of an accepted record."""
    return shown(entry, ask(program, "run", entry.path, record, buffer)[0])


@lru_cache(maxsize=20_000)
def ask(program, command, path, text, buffer):
    """What a command prints for a schedule's text, and its fault."""
    return call(program, [command, path, RECORD, "--buffer", buffer], text)


def call(program, words, text):
    """The output of a command and its fault, which is empty where there is none."""
    try:
        done = subprocess.run([str(program), *map(str, words)], input=text, capture_output=True, text=True, check=False)
    except OSError as error:
        raise Wrong(f"{program}: {error.strerror}: --program names another one") from error
    if done.stderr and not done.stderr.startswith("ztso: refused "):
        raise Wrong(f"{' '.join(map(str, words))}: {done.stderr.strip()}")
    return done.stdout, done.stderr.strip()
