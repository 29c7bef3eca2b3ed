"""What the wrapper `ztso` adds on standard error, in a checkout and where it is installed: at a terminal more than elsewhere."""

import os
import shutil
import subprocess

import tree
from kit import terminal
from page_parts import listing

from . import NOT_KNOWN, NOT_PROVED, SB, SECONDS, Typed, call, install, is_binary, said_of, workplace

BAD = "ztso: bad command line\n"
RUN = """\
usage: ztso run FILE SCHEDULE [--buffer N]
  reads       a litmus text and a schedule
  prints      the last state and the verdict
  --buffer N  a hart's store buffer holds N stores: 1, 2, 4 or 16; 4 if it is
              left out
"""
UNKNOWN = """\
ztso: refused 2 at line 1
  The mnemonic isn't known, or a text in a register's place is no register.
"""
NO_HEADER = """\
ztso: refused 21 at line 1
  The first line that isn't blank isn't `RISCV` and a name.
"""
READ_FAILED = """\
ztso: read failed
  A file can't be opened or read, or standard input can't be read.
  none isn't there
"""
CUT = """\
ztso: cut at 1 states
  `find` stopped at this number of distinct states, and none of them shows the outcome.
"""
# words that ask for no job, and what is wrong with them
WRONG = ((("run",), "FILE is missing"), (("run", "a", "b", "c"), "`c` is one word too many"), (("no-command",), "`no-command` is no command"),
         (("find", "a", "--states", "abc"), "`abc` is no number from 1 to 16777216, for --states"),
         (("find", "a", "--states=0"), "`0` is no number from 1 to 16777216, for --states"),
         (("find", "a", "--states"), "--states has no value"), (("find", "a", "--seed", "1"), "`--seed` is no option of find"),
         (("try", "a", "--seed", "18446744073709551616", "--runs", "1", "--length", "1"),
          "`18446744073709551616` is no number from 0 to 18446744073709551615, for --seed"),
         (("try", "a", "--seed", "+007", "--runs", "1"), "--length is missing"), (("run", "a", "b", "--buffer", "04"),
          "`04` is none of 1, 2, 4 and 16, for --buffer"), (("channel", "other", "3", "a"), "`other` is no KIND"),
         (("channel", "lamport", "-3", "a"), "`-3` is no number from 0 to 4294967295, for RING"),
         (("callers", "a", "--slots", "2", "--sender", "64"), "`64` is no number from 0 to 63, for --sender"),
         (("callers", "a", "--kind", "own"), "`own` is none of lamport, cached and fastforward, for --kind"),
         (("callers", "a", "--slots", "2", "--seed", "1", "--runs", "1"), "--length is missing"),
         (("r[un'", "x"), "`r[un'` is no command"), (("try", "a", "--[seed", "1"), "`--[seed` is no option of try"),
         (("run", "a", "b", "c\x1b[31m\x07\x9b"), "`c?[31m??` is one word too many"), (("\x1b[2Jrun",), "`?[2Jrun` is no command"),
         (("channel", "Lamport", "3", "a"), "`Lamport` is no KIND"), (("channel", "lamport", "3"), "SCHEDULE is missing"),
         (("channel", "own", "3", "a", "--finish"), "--finish doesn't go with own"), (("channel", "own", "3", "a", "--sender=b"), "--receiver is missing, which own needs"),
         (("channel", "cached", "3", "a", "--sender", "b"), "--sender goes with own alone"),
         (("chart", "a", "b", "--svg", "--svg"), "--svg is given twice"), (("chart", "a", "b", "--svg=1"), "--svg takes no value"))
# slips of the pen in a test, with what is said of them, and in a copy of it without them nothing is
SLIPS = ((("0(x8) | lw", "0(x9) | lw"), ("Nothing sets P0's `x9`: it is 0, and `lw x7,0(x9)` (line 9) touches `x`.",)),
         (("1:x8=x", "1:x8=X"), ("Only one hart names `x` (P0) and `X` (P1). To share a location, both harts name it.",)),
         (("1:x7=0)", "1:x9=0)"), ("The condition asks of `1:x9`, which no instruction of P1 sets.",)),
         (("1:x7=0)", "1:x7=0 /\\ z=0)"), ("The condition asks of `z`, which no hart touches.",)),
         (("0(x8) | lw", "4(x9) | lw"), ("Nothing sets P0's `x9`: it is 0, and `lw x7,4(x9)` (line 9) touches `y`.",)),
         (("0:x8=y", "0:x8=0"), ("Only one hart names `y` (P1). To share a location, both harts name it.",)), (("RISCV SB", "RISCV other"), ()))
# faults of a test, with what is said of their place at a terminal
TABLE, CELL, HEADER = ("  There is no table, its first row isn't `P0`,", "  A cell is no statement of assembly,", "  The first line that isn't blank isn't `RISCV`")
PLACES = ((("sw x5,0(x6) |", "swx x5,0(x6) |"), 24, 8, "line 8, P0: `swx x5,0(x6)`: The mnemonic isn't known, or a text in a register's place is no register.", CELL),
          (("lw x7,0(x8) ;", "lw x7,9999(x8) ;"), 24, 9, "line 9, P1: `lw x7,9999(x8)`: A number", CELL),
          (("lw x7,0(x8) ;", "lw \x1b\x9b,0(x8) ;"), 24, 9, "line 9, P1: `lw ??,0(x8)`: The mnemonic", CELL),
          (("lw x7,0(x8) ;", "j nowhere ;"), 24, 9, "line 9, P1: `j nowhere`: ", CELL), (("exists", "exist"), 23, 10, "line 10: `exist`, did you mean `exists`?", TABLE),
          (("exists", "~exsits"), 23, 10, "line 10: `~exsits`, did you mean `~exists`?", TABLE), (("exists", "maybe"), 23, 10, "", TABLE),
          (("x5,0(x6) | sw", "x5,0(x6)   sw"), 23, 8, "", TABLE), (("RISCV", "riscv"), 21, 1, "line 1: `riscv`, did you mean `RISCV`?", HEADER),
          (("RISCV", "X86"), 21, 1, "", HEADER))
DRAWN = ("--seed", "1", "--runs", "10", "--length", "20")


class Place:
    """A folder with the wrapper, and what it names there."""

    def __init__(self, name, wrapper, pages, explain, manual, notice=""):
        self.name, self.wrapper, self.pages, self.explain, self.manual = name, wrapper, pages, explain, manual
        # what each call says first of a program that isn't proved
        self.notice = notice


def part(count, program):
    """In a checkout, and what the two places have in common."""
    with workplace(program) as (folder, alone):
        prefix, top = folder / "prefix", checkout(folder / "checkout", alone)
        places = [installed_at(prefix, program, alone), Place("in a checkout", top / "ztso", top, top / "tools/explain", f"man {top}/docs/ztso.1")]
        added(count, places[1], folder, alone)
        short_names(count, places, prefix, top)
        which(count, places, alone, folder)
        by_rustc(count, checkout(folder / "by-rustc", alone), folder)
        if is_binary(program):
            progress(count, places[0], places[0].pages)
            prompt(count, places[0], places[0].pages)


def installed(count, program):
    """Where it is installed."""
    with workplace(program) as (folder, alone):
        added(count, installed_at(folder / "prefix", program, alone), folder, alone)


def installed_at(prefix, program, alone):
    install("--prefix", prefix, "--program", alone)
    return Place("installed", prefix / "bin/ztso", prefix / "share/ztso", prefix / "bin/ztso-explain", manual_of(prefix), said_of(program))


def added(count, place, folder, alone):
    """What the wrapper adds at this place, at a terminal and elsewhere."""
    (folder / "bad.litmus").write_text("no test\n")
    in_a_pipe(count, place, folder)
    after_bad_words(count, place, folder)
    after_faults(count, place, folder)
    nothing_added(count, place, folder, alone)
    shown_first(count, place, folder, alone)
    drawn(count, place, folder, alone)
    slips(count, place, folder, alone)
    faulty_places(count, place, folder)


def manual_of(prefix):
    """The command that is named for the manual page of a prefix whose commands aren't on the PATH."""
    return f"man {prefix}/share/man/man1/ztso.1" if shutil.which("man") else "man ztso"


def checkout(top, program):
    """A folder like a checkout, in which nothing is to be built."""
    for name in ("scripts", "tools", "crates/ztso/out"):
        (top / name).mkdir(parents=True)
    for name in ("ztso", "VERSION", "scripts/program", "scripts/at-terminal", "scripts/about-test", "scripts/drawing", "scripts/usage.awk", "scripts/words.awk", "tools/explain"):
        shutil.copy(tree.TOP / name, top / name)
    for name in ("docs", "litmus", "examples", "tools/page_parts", "tools/reference", "tools/bring_parts"):
        (top / name).symlink_to(tree.TOP / name)
    (top / "scripts/build").write_text("#!/bin/sh\n")
    (top / "scripts/build").chmod(0o755)
    (top / "crates/ztso/out/ztso").symlink_to(program)
    return top


def which(count, places, program, folder):
    """What `--which` says of the program that runs."""
    installed, here = places
    words = {"": "proved, and built by the kit", NOT_PROVED: "built by rustc from the sources that ./prove proves; nothing is proved of it"}.get(
        installed.notice, NOT_KNOWN.removeprefix("ztso: ").strip())
    count.same("which program is installed", call(installed.wrapper, "--which", folder=folder),
               (0, f"{installed.wrapper.parent.parent}/lib/ztso/ztso: {words}\n", ""))
    count.same("which program a checkout runs", call(here.wrapper, "--which", folder=folder),
               (0, f"{here.pages}/crates/ztso/out/ztso: proved on this machine, and built by the kit\n", ""))


def by_rustc(count, top, folder):
    """A checkout whose proved program isn't current, so that the one by rustc runs, which each call says."""
    proved, stock = top / "crates/ztso/out/ztso", top / "stock/out/ztso"
    stock.parent.mkdir(parents=True)
    proved.rename(stock)
    (top / "stock/build").write_text("#!/bin/sh\n")
    (top / "scripts/build").write_text("#!/bin/sh\nexit 1\n")
    for path in (top / "stock/build", top / "scripts/build", folder / "cargo"):
        path.touch()
        path.chmod(0o755)
    here = {"PATH": f"{folder}:{os.environ['PATH']}"}
    said = "ztso: built by rustc, and nothing is proved of it; ./prove builds the proved program\n"
    count.same("a program that isn't proved says so", call(top / "ztso", "asm", folder=folder, text="nop\n", variables=here),
               (0, "00000013\n", said))
    count.same("and --which names it", call(top / "ztso", "--which", folder=folder, variables=here),
               (0, f"{stock}: built by rustc from the sources that ./prove proves; nothing is proved of it\n", said))


def at_terminal(words, folder, text="", before=""):
    """The status, standard output, and what a terminal shows of standard error."""
    line = ["sh", "-c", f'{before}exec "$0" "$@"', *map(str, words)]
    done, written = terminal.run(line, cwd=folder, input=text.encode(), stdout=subprocess.PIPE, timeout=SECONDS)
    return done.returncode, done.stdout.decode(), terminal.shown(written)[0].decode()


def in_a_pipe(count, place, folder):
    for words, wrong in ((), ""), *((words, f"  {wrong}\n") for words, wrong in WRONG):
        count.same(f"{place.name}, {words} in a pipe", call(place.wrapper, *words, folder=folder, text=""), (2, "", place.notice + BAD + wrong))
    count.same(f"{place.name}, a refusal in a pipe", call(place.wrapper, "asm", folder=folder, text="mov x1,x2\n"),
               (2, "", place.notice + UNKNOWN.split("\n")[0] + "\n"))
    # what asks for help has it on standard output, and the program's answer on standard error
    version = (tree.TOP / "VERSION").read_text()
    for words, begins in ((("--help",), f"ztso {version.strip()} runs "), (("help",), f"ztso {version.strip()} runs "), (("-h",), f"ztso {version.strip()} runs "),
                          (("run", "--help"), RUN), (("help", "run"), RUN), (("try", "-h"), "usage: ztso try FILE ")):
        status, said, faults = call(place.wrapper, *words, folder=folder, text="")
        count.same(f"{place.name}, {words} in a pipe", (status, said[:len(begins)], faults), (2, begins, place.notice + BAD))
        count.same(f"{place.name}, {words} at a terminal", at_terminal([place.wrapper, *words], folder), (2, said, place.notice + BAD))
    count.same(f"{place.name}, the version", call(place.wrapper, "--version"), (0, f"ztso {version}", place.notice))
    count.same(f"{place.name}, the version at a terminal", at_terminal([place.wrapper, "--version"], folder), (0, f"ztso {version}", place.notice))
    (folder / "help").write_text("nop\n")
    count.same(f"{place.name}, a file that is called help", call(place.wrapper, "run", "help", "help", folder=folder)[1:], ("", place.notice + NO_HEADER.split("\n")[0] + "\n"))


def after_bad_words(count, place, folder):
    """The commands, or a command's words and options."""
    rows = [line.split("\t") for line in (tree.TOP / "docs/commands.tsv").read_text().splitlines() if line[0] != "#"]
    names = [row[1].split()[0] for row in rows if row[0] == "command"]
    for words in ((), ("--help",), ("help",), ("no-command",)):
        status, said, shown = at_terminal([place.wrapper, *words], folder)
        helps = "help" in " ".join(words)
        faults, _, added = shown.removeprefix(place.notice).partition("\n")
        count.same(f"{place.name}, {words}", (status, faults, "" if helps else said, added if helps else ""), (2, BAD.strip(), "", ""))
        lines = ["", *(said if helps else added).replace("  `no-command` is no command\n", "").split("\n")]
        listed, end = lines[2:2 + len(names)], lines[2 + len(names):]
        count.same(f"{place.name}, the commands after {words}", [line.split()[0] for line in listed], names)
        count.same(f"{place.name}, the end after {words}", end, [
            f"`ztso COMMAND --help`: its words and options; more: {place.manual}",
            f"litmus tests: {place.pages}/litmus", ""])
    more = f"more: {place.manual}; {place.pages}/docs/formats.md\n"
    for words, wrong in ((("run",), "  FILE is missing\n"), (("run", "a", "b", "c"), "  `c` is one word too many\n")):
        count.same(f"{place.name}, {words}", at_terminal([place.wrapper, *words], folder), (2, "", place.notice + BAD + wrong + RUN + more))
    count.same(f"{place.name}, help run", at_terminal([place.wrapper, "help", "run"], folder), (2, RUN + more, place.notice + BAD))
    for words, wrong in WRONG:
        _, _, shown = at_terminal([place.wrapper, *words], folder)
        count.same(f"{place.name}, the word that is wrong of {words}", shown.removeprefix(place.notice).split("\n")[1], f"  {wrong}")
    for name in names:
        status, said, shown = at_terminal([place.wrapper, name, "--help"], folder, before="stty cols 64 <&2; ")
        taken = [row[1] for row in rows if row[0] == "option" and name in row[2].split()]
        count.told(f"{place.name}, {name} --help",
                   (status, shown) == (2, place.notice + BAD) and said.startswith(f"usage: ztso {name}")
                   and all(f"\n  {option} " in said for option in taken)
                   and all(len(line) < 64 for line in said.split("\n") if not line.startswith("more: ")), said + shown)


def after_faults(count, place, folder):
    """The first line of the fault's section, and how to read the rest."""
    _, _, shown = at_terminal([place.wrapper, "find", "none"], folder)
    count.same(f"{place.name}, a file that find can't read", shown, place.notice + "ztso: read failed\n  none isn't there\n")
    _, _, shown = at_terminal([place.wrapper, "find", "a\x1b[31m\x07\x9bé"], folder)
    count.same(f"{place.name}, a name with what a terminal obeys", shown, place.notice + "ztso: read failed\n  a?[31m??é isn't there\n")
    trials = (
        (("asm",), "mov x1,x2\n", 2, UNKNOWN, "2"),
        (("run", "bad.litmus", "none"), "", 2, NO_HEADER, "21"),
        (("try", "bad.litmus", *DRAWN), "", 2, NO_HEADER, "21"),
        (("debug", "bad.litmus", "none"), "q\n", 2, NO_HEADER, "21"),
        (("find", f"{place.pages}/litmus/message-passing/mp.litmus", "--states", "1"), "", 5, CUT, "cut at states"),
        (("run", "none", "none"), "", 3, READ_FAILED, "read failed"),
        (("queue", f"{place.pages}/litmus/message-passing/mp.litmus", "--certificate", "none"), "", 3, READ_FAILED, "read failed"))
    for words, text, status, shown, what in trials:
        count.same(f"{place.name}, {' '.join(words)}", at_terminal([place.wrapper, *words], folder, text),
                   (status, "", f"{place.notice}{shown}  {place.explain} {what}: an example, and what to do\n"))


def nothing_added(count, place, folder, alone):
    """Where there is no fault, where the line can't be asked for again, and where standard output is closed."""
    holds, fails = ([place.pages / f"examples/{name}{end}" for end in (".litmus", ".schedule")] for name in ("store-buffering", "message-passing"))
    for words, text in (
            (("run", *holds), ""), (("run", *fails), ""), (("try", holds[0], *DRAWN), ""),
            (("debug", *holds), "s\nbad\nq\n"), (("asm",), "nop\n"),
            (("try", "/dev/stdin", *DRAWN), "no test\n")):
        status, said, faults = call(alone, *words, folder=folder, text=text)
        count.same(f"{place.name}, {words[0]} adds nothing", at_terminal([place.wrapper, *words], folder, text), (status, said, place.notice + faults))
    closed = "exec >&-; "
    status, said, faults = call("sh", "-c", f'{closed}exec "$0" "$@"', alone, "asm", text="nop\n", folder=folder)
    count.same(f"{place.name}, closed output", at_terminal([place.wrapper, "asm"], folder, "nop\n", closed), (status, said, place.notice + faults))


def shown_first(count, place, folder, alone):
    """What a terminal is shown of an answer: what is wrong first, and ten lines; and in a pipe all of it as the program prints it."""
    owed = ("callers", place.pages / "examples/callers/wrong/clears-the-queue.litmus", "--base", "1024", "--slots", "2", "--seed", "1", "--runs", "50",
            "--length", "400")
    status, said, _ = call(alone, *owed, folder=folder)
    *schedule, wrong = said.splitlines()
    records = folder / "refused.records"
    records.write_text("ztso-schedule 2\na0 store 0 0 2\n" * 20)
    checked = "".join(f"{number} refused 38 at event 0 line 2: store 0 0 2, the run has store 0 0 1\n" for number in range(1, 8))
    for words, text, wanted in (
            (owed, "", "\n".join([wrong, *schedule, ""])),
            (("check", place.pages / "litmus/store-buffering/sb.litmus"), records.read_text(),
             f"refused 20\nunfinished 0\n{checked}.. 13 lines more; whole in a pipe: ztso check .. | cat\n")):
        line = ["sh", "-c", 'exec "$0" "$@" >&2', *map(str, [place.wrapper, *words])]
        done, written = terminal.run(line, cwd=folder, input=text.encode(), stdout=subprocess.PIPE, timeout=SECONDS)
        shown = terminal.shown(written)[0].decode()
        count.told(f"{place.name}, {words[0]} shows first", done.returncode == 1 and shown.endswith(wanted), shown)
        status, said, _ = call(alone, *words, folder=folder, text=text)
        count.same(f"{place.name}, {words[0]} in a pipe", call(place.wrapper, *words, folder=folder, text=text)[:2], (status, said))


def drawn(count, place, folder, alone):
    """What `try` asks of the program where its words don't say how runs are drawn, which is said; and its table without schedules."""
    sb = place.pages / "litmus/store-buffering/sb.litmus"
    more = "--seed 1 --runs 1000 --length 60"
    said = f"{place.notice}ztso: try {sb} {more}\n"
    whole = call(alone, "try", sb, *more.split(), folder=folder)
    count.same(f"{place.name}, try with a file alone", call(place.wrapper, "try", sb, folder=folder), (whole[0], whole[1], said + whole[2]))
    table = "".join(line.partition(" ; ")[0] + "\n" for line in whole[1].splitlines())
    count.same(f"{place.name}, its table", call(place.wrapper, "try", sb, "--table", *more.split(), folder=folder),
               (whole[0], table, place.notice + whole[2]))
    few = call(alone, "try", sb, "--length", "9", "--seed", "1", "--runs", "1000", folder=folder)
    count.same(f"{place.name}, try with a length", call(place.wrapper, "try", sb, "--length", "9", folder=folder),
               (few[0], few[1], f"{place.notice}ztso: try {sb} --length 9 --seed 1 --runs 1000\n" + few[2]))
    for words in (("try",), ("try", "/dev/stdin"), ("try", sb, sb), ("try", sb, "--table", "--table")):
        refused = call(place.wrapper, *words, folder=folder)
        said = refused[2].removeprefix(place.notice).partition("  ")[0]
        count.same(f"{place.name}, {words[1:]} is refused", (refused[:2], said.endswith(BAD)), ((2, ""), True))
    shown = at_terminal([place.wrapper, "try", sb, "--table"], folder)
    count.same(f"{place.name}, a table at a terminal", shown[:2], (whole[0], table))


def slips(count, place, folder, alone):
    """What looks like a slip of the pen is said before the program answers, at a terminal or not, and of the shelf nothing."""
    shelf = sorted((place.pages / "litmus").glob("*/*.litmus"))
    right = (place.pages / "litmus/store-buffering/sb.litmus").read_text()
    count.same(f"{place.name}, the shelf", len(shelf), 72)
    found = {path.name: listing.listed(call(alone, "show", path)[1], path.read_text())["slips"] for path in shelf}
    count.same(f"{place.name}, a location of one hart is meant", {name: len(lines) for name, lines in found.items() if lines}, {"rsw.litmus": 1})
    for path in (path for path in shelf if path.name in ("rsw.litmus", "sb.litmus", "peterson.litmus")):
        count.same(f"{place.name}, no slip in {path.name}", call(place.wrapper, "show", path, folder=folder)[2], place.notice)
    file = folder / "slip.litmus"
    (folder / "none.schedule").write_text("ztso-schedule 1\n")
    for change, lines in SLIPS:
        file.write_text(right.replace(*change))
        said = place.notice + "".join(f"ztso: {line}\n" for line in lines)
        others = ("find", "--states", "9999", file), ("try", file, *DRAWN), ("run", file, folder / "none.schedule")
        for words in (("show", file), *(others if change == SLIPS[0][0] else ())):
            status, written, faults = call(alone, *words, folder=folder)
            count.same(f"{place.name}, {words[0]} after {change}", call(place.wrapper, *words, folder=folder), (status, written, said + faults))
        count.same(f"{place.name}, a terminal after {change}", at_terminal([place.wrapper, "show", file], folder)[2], said)
    for name, text in (("a refused text", "no test\n"), ("a slip and a fault", right.replace("x8) | lw", "x9) | lwx"))):
        file.write_text(text)
        said = call(place.wrapper, "show", file, folder=folder)[2].partition("  line ")[0]
        count.same(f"{place.name}, {name}", said, place.notice + call(alone, "show", file, folder=folder)[2])
    status, written, faults = call(place.wrapper, "show", "/dev/stdin", folder=folder, text=right.replace("0(x8) | lw", "0(x9) | lw"))
    count.same(f"{place.name}, a text on standard input", (status, bool(written), faults), (0, True, place.notice))


def faulty_places(count, place, folder):
    """The hart and the cell of a fault, or the word that is spelled almost as one that may stand there."""
    right, file = (place.pages / SB[0]).read_text(), folder / "fault.litmus"
    for change, number, line, said, section in PLACES:
        file.write_text(right.replace(*change))
        fault = f"ztso: refused {number} at line {line}"
        for words in (("show", file), *([("find", "--states", "9", file)] if change == PLACES[0][0] else [])):
            shown = at_terminal([place.wrapper, *words], folder)[2].removeprefix(place.notice).split("\n")
            wanted = [fault, *([f"  {said}"] if said else []), section]
            count.told(f"{place.name}, {words[0]}: the place of {change}",
                       len(shown) == len(wanted) + 2 and all(map(str.startswith, shown, wanted)), shown)
        status, written, faults = call(place.wrapper, "show", file, folder=folder)
        added = faults.removeprefix(f"{place.notice}{fault}\n")
        count.told(f"{place.name}, {change} in a pipe", (status, written) == (2, "") and added.startswith(f"  {said}") == bool(said) == bool(added)
                   and added.count("\n") == bool(said), faults)


def short_names(count, places, prefix, top):
    """What is named is short where that can be typed."""
    _, _, shown = at_terminal(["./ztso", "asm"], top, "mov x1,x2\n")
    count.same("in the checkout itself", shown, f"{UNKNOWN}  tools/explain 2: an example, and what to do\n")
    _, _, shown = at_terminal([places[0].wrapper, "asm"], top, "mov x1,x2\n", f"PATH='{prefix}/bin':$PATH; ")
    _, _, words = at_terminal([places[0].wrapper, "run"], top, "", f"PATH='{prefix}/bin':$PATH; ")
    count.told("the manual page on the PATH", f"more: man ztso; {prefix}/share" in words, words)
    count.same("on the PATH", shown, f"{places[0].notice}{UNKNOWN}  ztso-explain 2: an example, and what to do\n")


def progress(count, place, share):
    """`try`, `ring`, `callers` and `check` still see that they are at a terminal."""
    first = place.notice.encode()
    words = [place.wrapper, "try", share / SB[0], "--seed", "1", "--runs", "100000", "--length", "1000"]
    done, written = terminal.run(list(map(str, words)), stdout=subprocess.PIPE, timeout=SECONDS)
    shown, gone = terminal.shown(written)
    count.told("the progress of try", shown == first and gone and gone[-1].startswith(b"runs ") and done.stdout, (shown, gone))
    rings = tree.TOP / "examples/rings"
    words = [place.wrapper, "ring", rings / "lamport-sender.asm", rings / "lamport-receiver.asm", "2", "--seed", "1", "--runs", "9", "--length", "99"]
    done, written = terminal.run(list(map(str, words)), input=b"7\n", stdout=subprocess.PIPE, timeout=SECONDS)
    shown, gone = terminal.shown(written)
    count.told("the progress of ring", (shown, gone[-1:]) == (first, [b"runs 9 of 9"]) and done.stdout, (shown, gone))
    words = [place.wrapper, "callers", share / "examples/callers/lamport.litmus", "--slots", "2", "--base", "1024", *DRAWN]
    done, written = terminal.run(list(map(str, words)), stdout=subprocess.PIPE, timeout=SECONDS)
    shown, gone = terminal.shown(written)
    count.same("the progress of callers", (shown, gone[-1:], done.stdout.splitlines()[:1]),
               (first, [b"runs 10 of 10"], [b"kept 10 runs"]))
    # more than a second passes between two records
    record = "printf 'ztso-schedule 2\\n'"
    words = ["sh", "-c", f'({record}; sleep 2; {record}) | "$0" check "$1"', place.wrapper, share / SB[0]]
    done, written = terminal.run(list(map(str, words)), stdout=subprocess.PIPE, timeout=SECONDS)
    shown, gone = terminal.shown(written)
    count.told("the progress of check", shown == first and gone and gone[-1].startswith(b"0 kB read, ") and done.stdout, (shown, gone))
    # what is written to the terminal itself stands in lines of its own
    done, written = terminal.run([*words[:2], words[2].replace('check "$1"', 'check "$1" >&2'), *map(str, words[3:])], timeout=SECONDS)
    shown, gone = terminal.shown(written)
    count.same("the answers of check at a terminal", shown, first + b"refused 0\nunfinished 2\n1 unfinished\n2 unfinished\n")


def prompt(count, place, share):
    """`debug` asks for a line before one is typed."""
    typed = Typed([place.wrapper, "debug", *(share / name for name in SB)], share)
    try:
        asked = typed.until(b"\n> ")
        typed.type("s\nq\n")
        said = typed.until(b"store 0 0 1")
    finally:
        typed.end()
    named = b"".join(asked.splitlines(keepends=True)[:-1])
    count.told("debug's commands, before the first is asked for", all(each in named for each in (b"s: ", b"g: ", b"u K: ", b"r H: ", b"q: ", b"a H: ", b"l H: ",
               b"p H: ", b"w A: ", b"b H PC: ", b"t: ")), asked)
    count.told("the prompt of debug", asked.endswith(b"\n> ") and b"store 0 0 1" in said, said)
