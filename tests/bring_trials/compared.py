"""What compare-mappings answers, without a compiler: what is made of a file is written here. Its status where something is new, known, refused,
cut or not tried; what it prints as JSON; and the line that shows how far it is."""

import contextlib
import io
import json
import os
import pty
import runpy
import sys
import tempfile
from collections import Counter
from pathlib import Path
from unittest import mock

from bring_parts import ROOT, Refused, making, mappings, search
from bring_trials import counting

TEXT = "RISCV T\n{\n0:x6=x; 1:x6=x;\n}\n P0         | P1         ;\n li x5,1    | lw x7,0(x6) ;\n sw x5,0(x6) |            ;\nexists (1:x7=1)\n"
# by a mapping's or a way's options what a compiler makes: outcomes, whether the search stopped, or why it is refused
OUTCOMES = {(None, "all"): [(0,)], (None, "full"): [(0,)], (None, "none"): [(0,)], ("rvwmo.h", "all"): [(0,)], ("ztso.h", "all"): [(0,)],
            ("mine.h", "all"): [(0,)], ("weak.h", "all"): [(0,), (1,)], ("weaker.h", "all"): [(0,), (1,), (2,)],
            ("bad.h", "all"): "its row is no assembly", ("long.h", "all"): None}
KNOWN = {"new": [{"file": "a.c", "compiler": "cc", "way": "weak.h", "values": [1]}]}
# words of a command line, how many atomic operations are left beside a mapping, the status, and the last line
LAST = "no new outcome in 1 file by 1 compiler"
ASKED = [
    (["a.c"], 0, 0, f"{LAST}; 4 of 4 atomic operations went through a mapping"),
    (["a.cpp", "--mapping", "mine.h"], 1, 0, f"{LAST}; 3 of 4 atomic operations went through a mapping"),
    (["a.c", "--mapping", "weak.h"], 0, 1, "1 new outcome in 1 of 1 file by 1 compiler; 4 of 4 atomic operations went through a mapping"),
    (["a.c", "--mapping", "weaker.h"], 0, 1, "2 new outcomes in 1 of 1 file by 1 compiler; 4 of 4 atomic operations went through a mapping"),
    (["a.c", "--mapping", "weak.h", "--known", "known"], 0, 0, f"{LAST}; 1 outcome known; 4 of 4 atomic operations went through a mapping"),
    (["a.c", "--mapping", "mine.h"], 4, 3, f"{LAST}; 0 of 4 atomic operations went through a mapping; not tried: 1"),
    (["a.c", "--mapping", "bad.h"], 0, 3, f"{LAST}; 4 of 4 atomic operations went through a mapping; not tried: 1"),
    (["a.c", "--mapping", "long.h"], 0, 3, f"{LAST}; 4 of 4 atomic operations went through a mapping; not tried: 1"),
    (["a.S", "--mapping", "mine.h"], 0, 3, f"{LAST}; not tried: 1"), (["a.S"], 0, 0, LAST),
    (["none.c"], 0, 3, f"{LAST}; not tried: 1"),
    (["a.c", "none.c", "--mapping", "weak.h"], 0, 1,
     "1 new outcome in 1 of 2 files by 1 compiler; 4 of 4 atomic operations went through a mapping; not tried: 1"),
    (["a.c", "none.c"], 0, 3, "no new outcome in 2 files by 1 compiler; 4 of 4 atomic operations went through a mapping; not tried: 1"),
    (["a.c", "--known", "a.c"], 0, 2, "compare-mappings: a.c: it isn't what --json prints"), (["a.c", "--json", "--html", "x"], 0, 2, "name --json or --html"),
]


def compiled(path, way, states):
    """What one way makes of a file, as it stands in OUTCOMES."""
    made = OUTCOMES[way.mapping, way.fences] if not way.mapping or mappings.is_mapped(path) else "no text of C"
    if isinstance(made, str) or not Path(path).exists():
        raise Refused(made if isinstance(made, str) else "No such file or directory")
    found = search.Found({values: "a0*2 l0 a1" for values in made or [(0,)]}, 9, made is None)
    return mappings.Compiled(TEXT, 3, Counter(), 0, 0, found)


def answered(words, left):
    """The status and what a run of the tool prints, all of it, where this many atomic operations are left."""
    printed = io.StringIO()
    tool = runpy.run_path(str(ROOT / "tools/compare-mappings"))
    with mock.patch.multiple(mappings, compiled=compiled), mock.patch.multiple(
            making, atomics_left=lambda path, language, way: left if way.mapping else 4, check_rows=lambda name: None), \
            mock.patch.object(sys, "argv", ["compare-mappings", *words, "--compiler", "cc", "--program", str(ROOT / "tools/reference/ztso")]), \
            contextlib.redirect_stdout(printed), contextlib.redirect_stderr(printed):
        try:
            status = tool["main"]()
        except SystemExit as ended:
            status = ended.code
    return status, printed.getvalue()


def cut(count):
    """An outcome that a search didn't show which stopped isn't new for that: what wasn't tried is said."""
    with mock.patch.dict(OUTCOMES, {("ztso.h", "all"): None}):
        status, printed = answered(["a.c", "--mapping", "weak.h"], 0)
    count.told("compare-mappings where the other search stopped", status == 3, f"{status} {printed}")


# your store's and load's instructions by a mapping, the status of --pairs, and its last line
PAIRS = [(("sw x5,0(x6); fence rw,rw", "fence rw,rw; lw x7,0(x8)"), 0, "your store and load are in none of these"),
         (("sw x5,0(x6)", "fence rw,rw; lw x7,0(x8)"), 1, "your store or load is in"), (("sw x5,0(x6)", "lw x7,0(x8)"), 1, "your store or load is in")]


# string literals as a mapping writes them, and the statements that they are
LITERALS = ('"fence rw,rw\\n\\t" "sw x5,0(x6)"', "fence rw,rw; sw x5,0(x6)")


def pairs(count):
    made = mappings.statements_of(LITERALS[0], "mine.h")
    count.told(f"the statements of {LITERALS[0]}", made == LITERALS[1], made)
    for halves, wanted, last in PAIRS:
        with mock.patch.multiple(mappings, halves=lambda name, compiler, made=halves: made):
            status, printed = answered(["--pairs", "--mapping", "mine.h"], 0)
            again = answered(["--pairs", *["--mapping", "mine.h"] * 2], 0)
        said = printed.rstrip("\n").split("\n")[-1]
        count.told(f"compare-mappings --pairs by {halves}", status == wanted and said.startswith(last), f"{status} {printed}")
        count.told("compare-mappings --pairs by a mapping named twice", again == (status, printed), f"{again}")


def progress(count):
    """At a terminal a line of standard error shows how far it is, and is blank at the end."""
    near, far = pty.openpty()
    with open(far, "w", encoding="ascii") as terminal, mock.patch.object(sys, "stderr", terminal):
        show = runpy.run_path(str(ROOT / "tools/compare-mappings"))["show_progress"]
        show("file 1 of 2: a.c by gcc: ztso.h")
        show("")
        shown = ""
        while shown.count("\r") < 3:
            shown += os.read(near, 4096).decode()
    os.close(near)
    count.told("progress at a terminal", shown.startswith("\rfile 1 of 2: a.c by gcc: ztso.h ") and shown.endswith(" \r"), repr(shown))


def part(count):
    folder, before = tempfile.TemporaryDirectory(), os.getcwd()
    with folder as name:
        os.chdir(name)
        try:
            for file in ("a.c", "a.cpp", "a.S"):
                counting.write(name, file, "// nothing\n")
            counting.write(name, "known", json.dumps(KNOWN))
            for words, left, wanted, last in ASKED:
                status, printed = answered(words, left)
                count.told(f"compare-mappings {' '.join(words)}", status == wanted and printed.rstrip("\n").endswith(last), f"{status} {printed}")
            status, printed = answered(["a.c", "--mapping", "weak.h", "--json"], 1)
            made = json.loads(printed)
            count.told("compare-mappings --json", (status, made["status"], made["files"][0]["mapped"], made["new"][0]["values"], made["new"][0]["way"])
                       == (1, 1, 3, [1], "weak.h"), printed)
            cut(count)
        finally:
            os.chdir(before)
    progress(count)
    pairs(count)
