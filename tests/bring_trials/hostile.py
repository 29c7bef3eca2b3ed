"""Inputs that are none, or that are meant to hurt: each tool answers with a status and a line, and in time."""

import os
import shutil
import signal
import subprocess
import sys
import tempfile
from concurrent.futures import ThreadPoolExecutor
from dataclasses import dataclass
from pathlib import Path

from bring_parts import ROOT, TOOLS
from bring_parts.compilers import USUAL
from bring_trials.counting import run, write

MIB = 1 << 20
# the seconds of a processor that a tool may take; most take 1
PROCESSOR = 15
SB = (ROOT / "litmus/store-buffering/sb.litmus").read_text()
STATE = "1 :>0:x7=0; 1:x7=0;"
LOG = f"Test SB Allowed\nHistogram (1 states)\n{STATE}\nOk\n"
MANY_STATES = "".join(f"1 :>0:x7={at}; 1:x7=0;\n" for at in range(1, 47000))
# what would colour a terminal's text, clear it, and ring
ESCAPE = "\x1b[31m\x9b2J\x07"
TABLE = "3 0:x7=0 1:x7=0 ; a0*2 a1*2 l0 l1\nunfinished 0\n"
C = "int x;\nint P0(void) { return x; }\n// exists (0:a0=0)\n"


@dataclass
class Row:
    """A tool, a file's text (or None where there is no such file), what must come, and a part of what is printed."""
    tool: str
    text: object
    status: int
    part: str
    words: tuple = ()
    name: str = "input"
    stdin: object = ""


def filled(text, size=MIB):
    """The text again and again, up to a size."""
    return (text * (size // len(text) + 1))[:size]


def with_ending(ending):
    return SB[:SB.index("exists")] + ending


def with_item(item):
    return SB.replace("{\n", "{\n" + item, 1)


def names(front, count, end="", between=";"):
    """So many different names."""
    return between.join(f"{front}{number}{end}" for number in range(count))


def herd(text, status, part, **more):
    return Row("from-herd", text, status, part, **more)


def to_log(text, status, part, **more):
    return Row("to-litmus-log", text, status, part, **more)


def allowed(text, status, part, **more):
    """The log comes on standard input where no other is named."""
    return Row("allowed", text, status, part, **{"words": ("-",), **more})


def to_record(log, status, part, *words):
    return Row("core-log-to-record", SB, status, part, words, stdin=log)


def from_c(text, status, part, **more):
    return Row("from-c", text, status, part, **more)


def from_object(text, status, part, name, **more):
    return Row("from-object", text, status, part, **more, name=name)


HERD = [
    herd("", 2, "it is empty"),
    herd(None, 2, "No such file"),
    herd(b"RISCV \xff", 2, "no UTF-8"),
    herd("once upon a time", 2, "the header is `once`"),
    herd("X86 SB\n{ x=0; }\n", 2, "the header is `X86`"),
    herd("C SB\n{}\n", 2, "tools/from-c"),
    herd(SB + filled(" "), 2, "more than 1048576 bytes"),
    herd(SB, 0, "RISCV SB", name="a {b} 'c' $(d).litmus"),
    herd(SB.replace("SB", "S{B}%s\\n", 1), 0, "RISCV S{B}%s\\n"),
    herd(filled("(*", 1000000), 2, "it is empty"),
    herd("RISCV a\n" + filled("(*", 900000), 2, "isn't closed"),
    herd("RISCV a\n" + filled("{", 900000), 2, "no item"),
    herd("RISCV a\n{}\n" + filled("P0 ;\n", 900000), 2, "no statement"),
    herd(with_ending("exists " + filled("(", 900000)), 2, "refused 25"),
    herd(with_ending("exists " + filled("(x=1 => ", 900000)), 2, "refused 25"),
    herd(with_ending("exists " + "(" * 30000 + "x=1 => y=1" + ")" * 30000), 0, "(~(x=1) \\/ (y=1))"),
    herd(with_ending("exists x=1" + filled(" => x=1", 70000)), 0, "~(x=1)"),
    herd(with_ending("exists x=" + filled("1", 900000)), 2, "refused 25"),
    herd(with_ending("exists " + filled("1", 900000)), 2, "no operator"),
    herd(with_ending("exists x" + filled(" ", 900000)), 2, "no operator"),
    herd(with_ending("locations [" + filled("x;", 900000)), 2, "no condition"),
    herd(with_ending("locations [" + filled(" ", 900000) + "]\nexists x=1"), 0, "exists"),
    herd(with_item("int x" + filled(" ", 900000) + "=1;"), 0, "RISCV"),
    herd(with_item(filled("1", 900000) + ";"), 2, "no item"),
    herd(with_item(filled("a ", 900000) + ";"), 2, "no item"),
    herd(with_item("uint32_t x;" * 10000), 0, "int x=0;"),
    herd(SB.replace("sw x5,0(x6) |", "a" + filled(" ", 900000) + "b |", 1), 2, "no statement"),
    herd(SB.replace("sw x5,0(x6) |", "ld x5," + filled("1", 900000) + "(x6) |", 1), 2, "`ld x5,1111"),
    herd(SB, 2, "several files need", words=(ROOT / "litmus/store-buffering/sb.litmus",)),
    herd(with_ending(f"locations [{names('a', 50000)};]\nexists " + names("b", 50000, "=0", " /\\ ")), 2, "refused 26"),
    herd(with_item(names("uint32_t a", 50000)), 2, "no item"),
    herd(SB.replace("sw x5,0(x6) |", f"{ESCAPE}sw |", 1), 2, "?[31m?2J?sw"),
    herd(with_ending(f"exists {ESCAPE}=1"), 2, "?[31m?2J?"),
    herd(SB.replace("sw x5,0(x6) |", f"sw x5,0(x6) # {ESCAPE}\n |", 1), 2, "refused"),
    herd(f"{ESCAPE} SB\n{{}}\n", 2, "the header is `?[31m"),
    herd(None, 2, "a?[31m?2J?.litmus: No such file", words=(f"a{ESCAPE}.litmus", "--to", "none")),
    herd(SB, 2, "from-herd: /dev/null/input", words=("--to", "/dev/null")),
]
LOGS = [
    to_log(SB, 0, "Observation SB Always 3 0", stdin=TABLE),
    to_log(SB, 2, "no line that `ztso try`", stdin="hello\n"),
    to_log(SB, 2, "unfinished N", stdin=""),
    to_log(SB, 2, "unfinished N", stdin=TABLE.splitlines()[0] + "\n"),
    to_log(SB, 2, "no line", stdin=TABLE.replace("0:x7", "0:x8")),
    to_log(SB, 2, "no line", stdin=b"\xff\n" + TABLE.encode()),
    to_log("no litmus", 2, "refused 21", stdin=TABLE),
    to_log(None, 2, "No such file", stdin=TABLE),
    to_log(SB.replace("SB", "S{B}%s", 1), 0, "Test S{B}%s Allowed", stdin=TABLE, name="a {b}.litmus"),
    to_log(SB, 0, "Never 0 0", stdin="unfinished 7\n"),
    allowed(SB, 0, "1 outcomes: 1 shown", stdin=LOG),
    allowed(SB, 0, "1 shown", stdin=LOG, name="a {b} $c.litmus"),
    allowed(SB, 2, "-: it has no states of a test", stdin=""),
    allowed(SB, 3, "not looked at: MP\n1 outcomes: 1 shown, 0 not shown; 1 of 2 tests not looked at\n", stdin=LOG + LOG.replace("SB", "MP")),
    allowed(SB, 1, "1 shown, 1 not shown; 1 of 2 tests not looked at", stdin=LOG + f"{STATE.replace('x7=0', 'x7=5')}\n{LOG.replace('SB', 'MP')}"),
    allowed(SB, 2, "names no register 1:x9\n", stdin=LOG.replace("1:x7", "1:x9")),
    allowed(SB, 0, "1 shown", stdin=LOG.replace("1:x7=0", "1:x8=0")),
    allowed(SB.replace("1:x8=x", "1:x8=x; 1:x9=0"), 0, "1 shown", stdin=LOG.replace("1:x7", "1:x9")),
    allowed(SB, 2, "no states", stdin=filled("x\n")),
    allowed(SB, 3, "not looked at: S B {1}\n", stdin=LOG.replace("Test SB", "Test S B {1}")),
    allowed(SB, 0, "1 shown", stdin=LOG.replace("\n", "\r\n")),
    allowed(SB, 2, "no UTF-8", stdin=b"\xff" + LOG.encode()),
    allowed(SB, 1, "not shown in", stdin=LOG.replace("x7=0", "x7=5")),
    allowed(SB, 2, "no register or location 0:r9", stdin=LOG.replace("0:x7", "0:r9")),
    allowed(SB, 2, "no location w", stdin=LOG.replace("1:x7=0", "1:x7=w")),
    allowed(SB, 2, "the log's line 3", stdin=LOG.replace("1:x7=0", "~fault(P0)")),
    allowed(SB, 2, "different observed locations", stdin=LOG.replace(STATE, STATE + "\n1 :>0:x7=0;")),
    allowed("no litmus", 2, "the header is `no`", stdin=LOG),
    allowed(SB, 2, "No such file", words=("no-log",)),
    allowed(SB, 2, "refused 25", stdin=LOG.replace("0:x7", filled("1", 9000) + ":x7")),
    allowed(SB, 2, "no states", stdin=LOG.replace("1 :>", filled("1", 9000) + " :>")),
    allowed(SB, 1, "not shown", stdin=LOG.replace("0:x7=0", "0:x7=" + filled("1", 9000))),
    allowed(SB, 1, "47000 outcomes: 2 shown", stdin=LOG + MANY_STATES),
    allowed(SB, 0, "47001  0:x7=0", stdin=LOG + filled(STATE + "\n", 20 * 47000)),
    allowed(SB, 2, "the log's line 3", stdin=LOG.replace(STATE, "1 :>" + filled("a"))),
    allowed(SB, 2, "no states", stdin=filled("1", MIB)),
    allowed(SB, 2, "no states", stdin="Test " + filled("a b ")),
    allowed(SB, 0, "1 shown", stdin="Test SB Allowed\nStates 1\n0:x7=0; [1:x7]=0;\n".replace("[1:x7]", "1:t2")),
]
SOURCES = [
    from_c("", 2, "no comment has a condition"),
    from_c(None, 2, "No such file"),
    from_c(b"\xff", 2, "no UTF-8"),
    from_c("int main(void) { return 0; }\n// exists (0:a0=0)\n", 2, "no function P0"),
    from_c(C.replace("P0", "P1"), 2, "none left out: there are P1"),
    from_c(C + C, 2, "two functions P0"),
    from_c(C.replace("}", ""), 2, "isn't closed"),
    from_c(C.replace("(void)", "(y)"), 2, "the parameter `y`"),
    from_c(C.replace("exists", "init x=1.5\n// exists"), 2, "no value of a word"),
    from_c("C SB\n", 2, "no init part"),
    from_c("C SB\n{}\nP0() { }\n", 2, "no condition"),
    from_c(SB, 2, "no comment"),
    from_c(C, 2, "there is no command no-such-compiler", words=("--compiler", "no-such-compiler")),
    from_c(C, 2, "there is no command clang-999: apt-get install clang-999", words=("--compiler", "clang-999")),
    from_c(C, 2, "there is no mapping", words=("--mapping", "none.h")),
    from_c(C, 2, "names no command", words=("--compiler", " ")),
    from_c(filled("P0(", 300000), 2, "no comment"),
    from_c(filled("/*", 300000), 2, "no comment"),
    from_c(filled("/* ", 300000), 2, "no comment"),
    from_c(C + filled("/* ", 300000), 2, ""),
    from_c(C.replace("0:a0", filled("1", 9000) + ":a0"), 2, "no operator"),
    from_c(C.replace("0:a0", "x[" + filled("1", 9000) + "]"), 2, "no operator"),
    from_object(C, 2, "input.txt: its suffix is none of", "input.txt"),
    from_object("", 2, "no comment has a condition", "input.cpp"),
    from_object(b"\xff", 2, "no UTF-8", "input.rs"),
    from_object(b"\x7fELF", 2, "objects have no comments: --ask FILE", "input.o"),
    from_object(b"\x7fELF", 2, "input.o: no ELF object", "input.o", words=("--ask", ROOT / "examples/cpp/dekker.cpp")),
    from_object(C, 2, "there is no command no-such-rustc", "input.rs", words=("--rustc", "no-such-rustc")),
    from_object(C, 2, "has no riscv32ia.json: tools/make-rust-core", "input.rs", words=("--rust-core", ROOT / "docs")),
    from_object(C, 2, "there is no command no-such-compiler", "input.cpp", words=("--compiler", "no-such-compiler")),
    from_object(C, 2, "no comment has a condition", "input.s", words=("--ask", ROOT / "README.md")),
    from_object(filled("# exists ", 300000), 2, "no operator", "input.s"),
    from_object("// exists " + filled("a::", 300000) + "\n", 2, "no operator", "input.cpp"),
    from_object(C.replace("exists", f"init {ESCAPE}\n// exists"), 2, "`?[31m?2J?` is no item", "input.cpp"),
    Row("make-rust-core", None, 2, "there is no command no-such-rustc", words=("--rustc", "no-such-rustc")),
    to_log(SB, 2, "no line", stdin=TABLE.replace("x7=0", "x7=" + filled("1", 9000))),
    to_log(SB, 2, "no line", stdin=filled("1", 9000) + TABLE),
    from_c(filled("P0(P0(", 300000) + "\n// exists (0:a0=0)\n", 2, "no function P0"),
    from_c(C + filled("/*", 300000), 2, ""),
    from_c(C + filled("(*", 300000), 2, ""),
    from_c("C a\n{" + filled("(* ", 300000), 2, "no init"),
    from_c(C.replace("exists", "init " + filled("1", 300000) + "\n// exists"), 2, "no item"),
    from_c(C + filled(" "), 2, "more than"),
    from_c(C.replace("exists", f"init {ESCAPE}\n// exists"), 2, "`?[31m?2J?` is no item"),
    from_c(C.replace("(void)", f"({ESCAPE})"), 2, "the parameter `?[31m"),
    from_c(C, 2, f"there is no mapping a?", words=("--mapping", "a\x1b.h")),
    to_record("run 1" + filled("1", 5000), 2, "it takes 1 to 20 decimal digits"),
    to_record("run 1\nend " + filled("1", MIB), 2, "it takes 1 to 20 decimal digits"),
    to_record("run 1\nretire 0 0 " + filled("f", 9000) + " 13 0 0 0 0 0 0 0 0\n", 2, "it takes 1 to 16 hex digits"),
    to_record("run 1\n" + "retire 1 0 0 532023 0 0 0 0 f 0 1 1\n" * 3000, 2, "more than 2000 acts",
              "--order", "placed"),
    to_record(filled("1"), 2, "it is no VCD", "--log", "rvfi"),
    to_record("$var wire 1 ! clk" + filled(" ") + "\n$enddefinitions $end\n", 2, "the test has 2 harts, and 0",
              "--log", "rvfi"),
    to_record(filled(f"$scope module {ESCAPE} $end\n", 90_000), 2, "it is no VCD", "--log", "rvfi"),
    to_record(filled("core   0: 3 0x"), 2, "--code gives", "--log", "spike"),
    to_record(f"core   0: exception {ESCAPE}, epc 0x0\n", 2, "--code gives", "--log", "spike"),
    to_record(f"core   9: 3 0x0 (0x13){ESCAPE}\n", 2, "the log has a hart 9", "--log", "spike"),
    to_record(f"run 1\ndrain 1 0 0 f {ESCAPE}\n", 2, "DATA is `?[31m?2J?`: it takes 1 to 16 hex digits"),
    to_record(b"\xff\nrun 1\nend 1\n", 1, "hart 0 has 2 words of code and no line"),
    Row("compare-mappings", None, 3, "refused", words=("--compiler", "no-such-compiler")),
    *[row for tool in ("reference/explore", "reference/axioms") for row in (
        Row(tool, SB, 0, f"\n\ntools/{tool} FILE", words=("--help",)), Row(tool, SB, 0, "0:x7=1 1:x7=0"),
        Row(tool, "no litmus", 2, "refused 21"), Row(tool, None, 2, "No such file"), Row(tool, b"\xff", 2, "no UTF-8"),
        Row(tool, SB, 2, "usage: tools/reference/", words=("1", "2")))],
    Row("reference/explore", SB, 2, "is no capacity", words=(filled("1", 5000),)),
]
# what is judged after the C is compiled, so these rows are left out where there is no gcc for RISC-V
COMPILED = [
    from_c(C.replace("0:a0", "1:a0"), 2, "there is no P1"),
    from_c(C.replace("0:a0", "0:x"), 2, "its local x has no last value"),
    from_c(C.replace("0:a0", "0:r7"), 2, "no local of that name"),
    from_c(C.replace("return x", f"return x{ESCAPE}"), 2, "input: riscv64-unknown-elf-gcc fails\n"),
] if any(map(shutil.which, USUAL["gcc"])) else []


def with_path(folder, *words):
    """The status of from-c, and what it says, where all commands stand in a folder."""
    done = subprocess.run([sys.executable, str(TOOLS / "from-c"), *map(str, words)], stdin=subprocess.DEVNULL,
                          capture_output=True, text=True, env={"PATH": str(folder)}, check=False)
    return done.returncode, done.stderr


def missing(count):
    """A compiler that isn't there is named, with its package."""
    with tempfile.TemporaryDirectory() as folder:
        path = write(folder, "c.c", C)
        for compiler, package in (("gcc", "gcc-riscv64-unknown-elf"), ("clang", "clang")):
            status, told = with_path(folder, path, "--compiler", compiler)
            count.told(f"no {compiler}", status == 2 and f"apt-get install {package}\n" in told, told)


def crash(count):
    """Where a compiler fails, or crashes, its lines come first, and no file is left."""
    crashes = "#pragma clang __debug crash\n"
    jobs = [(name, text) for name, text in (("gcc", "#error\n"), ("clang", "#error\n"), ("clang", crashes))
            if any(map(shutil.which, USUAL[name]))]
    with tempfile.TemporaryDirectory() as folder, tempfile.TemporaryDirectory() as scratch:
        for compiler, text in jobs:
            path, made = write(folder, "c.c", text + C), Path(folder, "made.litmus")
            status, _, error = run("from-c", path, "--compiler", compiler, "-o", made, variables={"TMPDIR": scratch})
            last = error.splitlines()[-1:]
            good = status == 2 and last[0].startswith(f"from-c: {path}: ") and last[0].endswith(" fails")
            count.told(f"{compiler} on {text!r}", good, error)
            left = [*Path(scratch).iterdir(), *([made] if made.exists() else [])]
            count.told(f"{compiler} on {text!r} leaves nothing", not left, str(left))


def unread(count):
    """A reader that leaves before a tool prints is no fault."""
    with tempfile.TemporaryDirectory() as folder:
        path, (reads, writes) = write(folder, "sb.litmus", SB), os.pipe()
        os.close(reads)
        done = subprocess.run([TOOLS / "from-herd", path], stdout=writes, stderr=subprocess.PIPE, text=True, check=False)
        os.close(writes)
        count.told("a reader that leaves", (done.returncode, done.stderr) == (128 + signal.SIGPIPE, ""), done)


def failure(job):
    """What is wrong with a row's answer, or nothing."""
    row, folder = job
    name = write(folder, row.name, row.text) if row.text is not None else f"{folder}/none"
    words = [*row.words, name] if row.tool == "allowed" else [name, *row.words]
    status, printed, error = run(row.tool, *words, text=row.stdin, processor=PROCESSOR)
    is_good = status == row.status and row.part in printed + error and "Traceback" not in error
    is_good = is_good and all(line.isprintable() for line in error.split("\n"))
    return "" if is_good else f"status {status}: {(error + printed)[-300:]}"


def part(count):
    """Each row's tool on its file."""
    rows = HERD + LOGS + SOURCES + COMPILED
    with tempfile.TemporaryDirectory() as folder, ThreadPoolExecutor(os.cpu_count()) as pool:
        folders = [Path(folder, str(number)) for number in range(len(rows))]
        for each in folders:
            each.mkdir()
        for row, wrong in zip(rows, pool.map(failure, zip(rows, folders))):
            text, stdin = (row.text or "")[:40], row.stdin[:60]
            count.told(f"{row.tool} {row.words} on {text!r}, {stdin!r}", not wrong, wrong)
    missing(count)
    crash(count)
    unread(count)
