"""Threads that the system doesn't start: another user's limit of processes, and an address space without room."""

import os
import pwd
import resource
import shutil
import subprocess
from pathlib import Path

from . import limits
from .runs import NO_MEMORY, NO_THREAD, brief

KINDS = ["no thread", "no memory", "own answers", "didn't begin"]
SECONDS = 20
USER = "nobody"
KIB, MIB = 1 << 10, 1 << 20


def answer(runs, program, words, limit, value, user=None):
    """What the program answers below a limit; nothing may hang."""
    try:
        done = subprocess.run([program, *words], stdin=subprocess.DEVNULL, capture_output=True, timeout=SECONDS,
                              preexec_fn=lambda: resource.setrlimit(limit, (value, value)), user=user)
    except subprocess.TimeoutExpired:
        return "no end", b"", b""
    return done.returncode, done.stderr, done.stdout


def judged(runs, words, came, begins, own):
    """The kind of an answer, and whether it may be. `threads` has no answer that is known before. The jobs of `try`
    go on in the caller's thread."""
    if came == NO_THREAD and own is None:
        return "no thread", True
    if came == NO_MEMORY:
        return "no memory", True
    if not begins and came[0] == 127:
        return "didn't begin", True
    return "own answers", runs.is_answer_of_threads(words, came) if own is None else came == own


def few_processes(runs, program, words, most, own=None):
    """Another user's processes: the program's own thread is one."""
    user = pwd.getpwnam(USER).pw_uid
    for value in range(1, most):
        came = answer(runs, program, words, resource.RLIMIT_NPROC, value, user)
        runs.hold(*judged(runs, words, came, True, own), brief(came), words, b"", f"{value} processes")


def little_room(runs, program, words, sizes, own=None):
    """An address space of so many bytes. Where the C library has no room, the program doesn't begin."""
    for size in sizes:
        begins = answer(runs, program, ["dis"], resource.RLIMIT_AS, size)[0] == 0
        came = answer(runs, program, words, resource.RLIMIT_AS, size)
        runs.hold(*judged(runs, words, came, begins, own), brief(came), words, b"", f"{size} bytes of address space")


def part(runs):
    os.chmod(runs.folder, 0o755)
    program = str(Path(runs.folder, "program"))
    shutil.copy(runs.program, program)
    os.chmod(program, 0o755)
    wide = limits.litmus(64, cells=["sw x5,0(x6)", "lw x7,4(x6)"], items="x=0;y=0")
    runs.put({"wide.litmus": wide})
    os.chmod("wide.litmus", 0o644)
    # a test of the shelf may lie where another user can't go
    runs.put({"sb-copy.litmus": Path("litmus/store-buffering/sb.litmus").read_bytes()})
    os.chmod("sb-copy.litmus", 0o644)
    step, wide_step = (2 * MIB, 64) if runs.short else (256 * KIB, 8)
    for words, harts in ((["threads", "sb-copy.litmus"], 2), (["threads", "wide.litmus", "--turns", "50"], 64)):
        came = runs.run(words)
        runs.hold("own answers", runs.is_answer_of_threads(words, came), brief(came), words)
        if os.geteuid() == 0:
            few_processes(runs, program, words, min(2 * harts + 4, 24 if runs.short else 200))
        little_room(runs, program, words, range(2 * MIB, 64 * MIB, step * (2 if harts > 2 else 1)))
    little_room(runs, program, ["threads", "wide.litmus", "--turns", "50"],
                range(64 * MIB, 1500 * MIB, 4 * MIB * wide_step))
    words = ["try", "sb-copy.litmus", "--seed", "1", "--runs", "2000", "--length", "20", "--jobs", "16"]
    own = runs.compare("own answers", words)
    if os.geteuid() == 0:
        few_processes(runs, program, words, 20, own)
    little_room(runs, program, words, range(2 * MIB, 256 * MIB, step * 4), own)
    runs.counts("threads" if os.geteuid() == 0 else "threads, without a limit of processes, which needs root", KINDS)
