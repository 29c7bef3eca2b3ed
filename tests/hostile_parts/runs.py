"""Runs of the program and of the reference in one folder, and what is counted of them."""

import contextlib
import io
import os
import random
import runpy
import subprocess
import sys
import tempfile
from collections import Counter
from multiprocessing import get_context
from pathlib import Path

from faults import Fault
from kit import escapes

from . import ROOT

REFERENCE = runpy.run_path(str(ROOT / "tools/reference/ztso"))
SECONDS = 60
NO_MEMORY = (4, b"ztso: no memory\n", b"")
NO_THREAD = (2, b"ztso: refused 35\n", b"")
READ_FAILED = (3, b"ztso: read failed\n", b"")
WRITE_FAILED = (3, b"ztso: write failed\n")
BAD_COMMAND_LINE = (2, b"ztso: bad command line\n", b"")


def refused(number, place=""):
    return 2, f"ztso: refused {number}{place}\n".encode(), b""


class Runs:
    """The program, the folder in which it runs, the seed's draws, and what came of the runs so far."""

    def __init__(self, program, seed, short):
        self.program, self.short = str(program), short
        self.draw = random.Random(seed)
        self.passed = self.failed = self.shown = 0
        self.came = Counter()
        self.move_to(tempfile.mkdtemp(prefix="ztso-hostile-"))

    def move_to(self, folder):
        """Runs from now on in this folder, which is empty."""
        self.folder, self.files = folder, {}
        for name in ("litmus", "examples"):
            Path(folder, name).symlink_to(ROOT / name)
        os.chdir(folder)

    def put(self, files):
        """Writes the files of a run, except those that lie there already."""
        for name, content in files.items():
            if self.files.get(name) != content:
                Path(name).write_bytes(content)
                self.files[name] = content

    def run(self, words, stdin=b"", variables=None, **others):
        """The status, standard error and standard output of the program; standard input is bytes or a file."""
        given = {"input": stdin} if isinstance(stdin, bytes) else {"stdin": stdin}
        try:
            done = subprocess.run([self.program, *words], stdout=others.pop("stdout", subprocess.PIPE),
                                  stderr=subprocess.PIPE, timeout=SECONDS, **given, **others,
                                  env={**os.environ, **variables} if variables else None)
        except subprocess.TimeoutExpired:
            return "no end", b"", b""
        return done.returncode, done.stderr, done.stdout or b""

    def reference(self, words, stdin=b""):
        """The same of the reference, which has no `threads`."""
        sys.stdin, told = io.TextIOWrapper(io.BytesIO(stdin)), io.StringIO()
        try:
            with contextlib.redirect_stderr(told):
                command, files, options = REFERENCE["job"](words)
                text, status = REFERENCE["ENGINES"][command](files, options)
        except Fault as fault:
            return fault.status, f"{fault.line}\n".encode(), b""
        return status, told.getvalue().encode(), text.encode()

    def hold(self, kind, right, came, words, stdin=b"", note=""):
        """Counts a run, and shows it where it isn't right."""
        self.came[kind] += 1
        if right:
            self.passed += 1
            return
        self.failed += 1
        self.shown += 1
        if self.shown > 40:
            return
        kept = Path(self.folder, f"wrong-{self.shown}")
        kept.mkdir()
        (kept / "stdin").write_bytes(stdin)
        for name, content in self.files.items():
            (kept / Path(name).name).write_bytes(content)
        line = " ".join(escapes.quoted(os.fsencode(word)) for word in words)
        print(f"wrong: {kind}: ztso {line}  {note}\n  {kept}: {came}", flush=True)

    def compare(self, kind, words, stdin=b""):
        """Holds the program against the reference."""
        wanted, came = self.reference(words, stdin), self.run(words, stdin)
        self.hold(kind, wanted == came, f"wanted {brief(wanted)}, came {brief(came)}", words, stdin)
        return wanted

    def is_answer_of_threads(self, words, answer):
        """Whether an answer of `threads FILE ..` is its own: `run` of the reference says the same of its schedule."""
        status, fault, text = answer
        head, _, rest = text.partition(b"hart 0 ")
        if fault or not rest:
            return False
        Path("of-threads.schedule").write_bytes(head)
        buffer = words[words.index("--buffer"):][:2] if "--buffer" in words else []
        return self.reference(["run", words[1], "of-threads.schedule", *buffer]) == (status, b"", b"hart 0 " + rest)

    def side_by_side(self, hold, rows):
        """Calls `hold(runs, *row)` for each row, on all cores, and takes in what was counted."""
        rows = list(rows)
        with get_context("fork").Pool(initializer=begin_worker, initargs=(self, hold, rows)) as pool:
            for passed, failed, came in pool.imap_unordered(work_on, range(len(rows))):
                self.passed += passed
                self.failed += failed
                self.came += came

    def counts(self, title, kinds):
        """Prints how often each kind came, and forgets it."""
        counts = ", ".join(f"{self.came.pop(kind)} {kind}" for kind in kinds if self.came[kind])
        print(f"{title}: {counts or 'nothing'}", flush=True)


# what a worker of `side_by_side` has: its own runs, what it calls, and all rows
WORKER = None


def begin_worker(runs, hold, rows):
    global WORKER
    runs.move_to(tempfile.mkdtemp(dir=runs.folder))
    WORKER = runs, hold, rows


def work_on(number):
    """Holds one row, and answers what was counted of it."""
    runs, hold, rows = WORKER
    runs.passed = runs.failed = 0
    runs.came.clear()
    hold(runs, *rows[number])
    return runs.passed, runs.failed, Counter(runs.came)


def brief(answer):
    status, fault, text = answer
    return status, fault[:200], text[:120] + (b".." if len(text) > 120 else b"")
