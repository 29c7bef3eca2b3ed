"""Installing below a prefix, and taking that away again."""

import hashlib
import re
import signal
import subprocess
from pathlib import Path

import tree

from . import NOT_KNOWN, NOT_PROVED, SB, below, call, install, said_of, workplace

# the lines that explain a name in a checkout begin with these, where N stands for the number of a line
WINDOWS = ["poll_close::Invariant::Blocks::window: crates/poll_close/specs/Invariant/Blocks.antt:N, a definition",
           "  the stores of one", "  abbrev pub window : ", "  window xs k n = ",
           "slot_queue::laws_of_ownership::window: crates/slot_queue/src/lib.rt:N, a clause",
           "slots_that_tell::laws_of_telling::window: crates/slots_that_tell/src/lib.rt:N, a clause",
           "Ask for one by its whole name: tools/explain slots_that_tell::laws_of_telling::window"]
NAMES = (("window", WINDOWS), ("slot_queue.window", [WINDOWS[-3], "  `window`: neither party", "  ensures window {", "      → "]),
         (WINDOWS[-2].partition(":N,")[0].split(": ")[0], [WINDOWS[-2], "  `window`: "]),
         ("slot_queue", ["slot_queue: crates/slot_queue/src/lib.rt:N, a crate", "  A queue between two harts"]),
         ("publication", ["slot_queue::laws_of_ownership::publication: "]),
         ("Happens", ["step_machine::Runs::Happens: crates/step_machine/specs/Runs.antt:N, a definition", "  the event has",
                      *["  abbrev pub Happens : ", *["  Happens B M t ev "] * 5], "named by:"]),
         ("follow", ["queue_certificates::Steps::follow: crates/queue_certificates/specs/Steps.antt:N, a definition", "  module _ (queues : ",
                     "    abbrev pub follow : "]),
         ("KnownValue", ["queue_certificates::States::KnownValue: "]),
         ("step_machine::Machine::step", ["step_machine::machine::Machine::step: crates/step_machine/src/machine.rt:N, a function"]))
# a small tree of crates: a definition in a module, whose name a second crate passes on and a third has too
LENT = """-- shelves of n books
module _ (n : ℕ) where

  -- how many are lent,
  -- at most n
  abbrev pub lent : ℕ → ℕ
  lent zero = zero

  -- one more
  lent (suc k) = n
  abbrev pub all : ℕ
  all = lent 2
"""
MADE = {"crates.txt": "low\nmid: low\ntop: mid\n", "docs/errors.md": "", "docs/errors-of-queues.md": "",
        "crates/low/specs/Shelf.antt": LENT, "crates/mid/specs/Lib.antt": "pub mod Desk\nunfoldable pub use Rattle.low.specs.Shelf.{lent}\n",
        "crates/mid/specs/Desk.antt": "use Rattle.mid.specs.{lent as given}\n\nabbrev pub asked : ℕ\nasked = given 3 4\n",
        "crates/mid/src/lib.rt": "ghost use Rattle.mid.specs.Lib.{lent};\n\npub fn lend(n: u32) -> u32\n    ensures counted { result ≡ lent n 1 }\n{\n",
        "crates/top/specs/Long.antt": "pub data long : Type 0 where\n" + "".join(f"  c{number} : long\n" for number in range(40)),
        "crates/top/specs/Lent.antt": "use Rattle.top.specs.Long.{c7}\nabbrev pub lent : ℕ\nlent = f c7 -- none is\n"}
LENT_TEXT = ["  how many are lent, at most n", "  module _ (n : ℕ) where", "    abbrev pub lent : ℕ → ℕ", "    lent zero = zero", "", "    -- one more",
             "    lent (suc k) = n"]
HEADS = ["low::Shelf::lent: crates/low/specs/Shelf.antt:6, a definition", "top::Lent::lent: crates/top/specs/Lent.antt:2, a definition"]
EXPLAINED = {
    "low::lent": [HEADS[0], *LENT_TEXT, "named by:", "  all (crates/low/specs/Shelf.antt)", "  asked (crates/mid/specs/Desk.antt)",
                  "in clauses of:", "  lend: counted (crates/mid/src/lib.rt)"],
    "lent": [HEADS[0], *LENT_TEXT, HEADS[1], "  abbrev pub lent : ℕ", "  lent = f c7 -- none is",
             "Ask for one by its whole name: tools/explain top::Lent::lent"],
    "long": ["top::Long::long: crates/top/specs/Long.antt:1, a definition", "  pub data long : Type 0 where",
             *(f"    c{number} : long" for number in range(29)), "  .. and 11 lines more: crates/top/specs/Long.antt:31",
             "named by:", "  lent (crates/top/specs/Lent.antt)"]}
# how many lines are to be read for a definition: its own, the `module` line of what it names, the `data` of a constructor
READ = {("Rattle.mid.specs.Desk", "asked"): 6, ("Rattle.low.specs.Shelf", "all"): 6, ("Rattle.top.specs.Lent", "lent"): 43}
COUNTING = f"from definitions import how_long, reading; print(*(how_long(reading([begin])) for begin in {list(READ)}))"
NO_SECTION = "explain: docs/errors.md has no section on "
NO_NAME = ", and crates/ has no definition, function, clause or crate of this name\n"


def part(count, program):
    with workplace(program) as (folder, alone):
        prefix, elsewhere = folder / "a prefix/with blanks", folder / "elsewhere"
        elsewhere.mkdir()
        (folder / "a prefix").mkdir()
        status, said, faults = install("--prefix", prefix, "--program", alone)
        count.told("installs", status == 0 and not faults and str(prefix / "bin") in said, said + faults)
        whole = contents(prefix)
        runs(count, prefix, elsewhere, alone, said_of(program))
        marks(count, folder, prefix)
        explains_names(count, prefix, elsewhere)
        explains_made(count, folder / "made")
        manual(count, prefix / "share/man", elsewhere)
        page(count, prefix, elsewhere)
        whole_parts(count, prefix / "share/ztso")
        count.same("what is installed stays as it is", contents(prefix), whole)
        repairs(count, prefix, alone, whole)
        taken_away(count, prefix, alone)
    with workplace(program) as (folder, alone):
        refusals(count, folder, alone)
        links(count, folder, alone)
        made_folders(count, folder, alone)


def contents(prefix):
    """The files below a prefix, with their contents and who may run them."""
    return {name: ((prefix / name).read_bytes(), (prefix / name).stat().st_mode)
            for name in below(prefix) if (prefix / name).is_file()}


def runs(count, prefix, elsewhere, alone, notice):
    """What is installed runs from any folder, and by a link."""
    words = ["run", *(prefix / "share/ztso" / name for name in SB)]
    wanted = call(alone, *words)
    count.told("the witness holds", wanted[0] == 0 and wanted[1].endswith("\nHolds\n") and not wanted[2], wanted)
    wanted = (*wanted[:2], notice)
    count.same("runs from another folder", call(prefix / "bin/ztso", *words, folder=elsewhere), wanted)
    (elsewhere / "linked").symlink_to(prefix / "bin/ztso")
    count.same("runs by a link", call("./linked", *words, folder=elsewhere), wanted)
    path = {"PATH": f"{prefix / 'bin'}:/usr/bin:/bin"}
    count.same("runs by the PATH", call("ztso", "asm", text="nop\n", folder=elsewhere, variables=path),
               (0, "00000013\n", notice))
    status, said, _ = call(prefix / "bin/ztso-explain", "ztso: refused 24 at line 4", folder=elsewhere)
    count.same("explains", (status, said.split("\n")[0]), (0, "24 BadInstr"))
    for line, wanted in (("hart 0 called with a2 = 12, not the bytes of the slots", "The code breaks rule 6 of docs/functions.md."),
                         ("1 refused 38 at event 1 line 3: load 1 4 1, the run has load 1 4 0", "38 Differs")):
        status, said, _ = call(prefix / "bin/ztso-explain", line, folder=elsewhere)
        count.same(f"explains `{line}`", (status, said.split("\n")[0]), (0, wanted))
    (prefix / "lib/ztso/ztso").rename(elsewhere / "ztso")
    status, said, faults = call(prefix / "bin/ztso", *words)
    count.same("without its program", (status, said, faults.startswith("ztso: ") and faults.count("\n")), (70, "", 1))
    (elsewhere / "ztso").rename(prefix / "lib/ztso/ztso")


def marks(count, folder, prefix):
    """What built a program is what the mark beside it says of its very bytes, and nothing else."""
    place, program = folder / "marked", folder / "answers"
    program.write_text("#!/bin/sh\necho answered\n")
    program.chmod(0o755)
    queue = ("examples/queues/running_indices.litmus", "--queue", "head=q_put,tail=q_get,slots=q_slot,size=4")

    def said_by(name, kind, notice, which):
        (place / "lib/ztso/built").write_text(f"{kind} {hashlib.sha256(program.read_bytes()).hexdigest()}\n")
        count.same(f"{name} answers", call(place / "bin/ztso", "run"), (0, "answered\n", notice))
        count.same(f"{name} is named", call(place / "bin/ztso", "--which"), (0, f"{place}/lib/ztso/ztso: {which}\n", ""))
        faults = call(place / "bin/ztso-queue", *queue, folder=place / "share/ztso")[2]
        count.same(f"{name} judges a queue", [line for line in faults.splitlines(keepends=True) if "proved" in line], [notice] if notice else [])
    status, said, faults = install("--prefix", place, "--program", program)
    count.told("installs what nobody knows", status == 0 and NOT_KNOWN.replace("ztso:", "the program:") in said, said + faults)
    unknown = NOT_KNOWN.removeprefix("ztso: ").strip()
    said_by("what nobody knows", "unknown", NOT_KNOWN, unknown)
    said_by("what is marked as proved", "proved", "", "proved, and built by the kit")
    said_by("what is marked as built by rustc", "rustc", NOT_PROVED, "built by rustc from the sources that ./prove proves; nothing is proved of it")
    install("--prefix", folder / "again", "--program", place / "lib/ztso/ztso")
    count.same("the mark goes with the program", (folder / "again/lib/ztso/built").read_bytes(), (place / "lib/ztso/built").read_bytes())
    said_by("again what is marked as proved", "proved", "", "proved, and built by the kit")
    (place / "lib/ztso/ztso").write_text("#!/bin/sh\necho changed\n")
    count.same("another program has no mark", call(place / "bin/ztso", "run"), (0, "changed\n", NOT_KNOWN))
    (place / "lib/ztso/built").unlink()
    count.same("nor has one without a mark", call(place / "bin/ztso", "--which"), (0, f"{place}/lib/ztso/ztso: {unknown}\n", ""))


def explains_names(count, prefix, elsewhere):
    """In a checkout names are explained, and a fault says where they were looked for."""
    explain = tree.TOP / "tools/explain"
    for name, wanted in NAMES:
        status, said, faults = call(explain, name, folder=elsewhere)
        lines = re.sub(r":\d+, a ", ":N, a ", said).splitlines()
        begins = len(lines) >= len(wanted) and all(line.startswith(front) for line, front in zip(lines, wanted))
        count.told(f"explains {name}", status == 0 and begins, said + faults)
    for name in ("no_such_name", "slot_queue::Happens", "99999"):
        count.same(f"explains no {name}", call(explain, name, folder=elsewhere), (1, "", NO_SECTION + name + NO_NAME))
    count.same("explains no words", call(explain, "no", "words", folder=elsewhere), (1, "", f"{NO_SECTION}no words\n"))
    count.same("explains no name where it is installed", call(prefix / "bin/ztso-explain", "window", folder=elsewhere),
               (1, "", f"{NO_SECTION}window\n"))


def explains_made(count, folder):
    """In a small tree of crates names are explained to the last line, and what has to be read is counted."""
    copied = {name: (tree.TOP / name).read_text() for name in ("tools/explain", "tools/reference/faults.py", "scripts/definition", "scripts/definitions.py")}
    for name, text in {**copied, **MADE}.items():
        (folder / name).parent.mkdir(parents=True, exist_ok=True)
        (folder / name).write_text(text)
    for name in ("tools/explain", "scripts/definition"):
        (folder / name).chmod(0o755)
    for name, wanted in EXPLAINED.items():
        status, said, faults = call(folder / "tools/explain", name)
        count.same(f"explains {name} of a small tree", (status, said.splitlines(), faults), (0, wanted, ""))
    count.same("counts what has to be read", call("python3", "-c", COUNTING, folder=folder / "scripts"),
               (0, " ".join(map(str, READ.values())) + "\n", ""))


def manual(count, folder, elsewhere):
    """The manual page opens, by each command's name."""
    if not count.there("man", "the manual page"):
        return
    for name in ("ztso", "ztso-explain", "ztso-page"):
        status, said, faults = call("man", "-M", folder, name, folder=elsewhere,
                                    variables={"MANPAGER": "cat", "PAGER": "cat", "MANWIDTH": "100", "LC_ALL": "C"})
        wanted = "ztso - run small RISC-V programs under the memory model Ztso"
        good = status == 0 and wanted in said and "ztso run FILE SCHEDULE [--buffer N]" in said
        count.told(f"man {name}", good, said + faults)


def page(count, prefix, elsewhere):
    """The page for the browser starts, and ends when it is told to."""
    served = subprocess.Popen([prefix / "bin/ztso-page"], cwd=elsewhere, text=True,
                              stdin=subprocess.DEVNULL, stdout=subprocess.PIPE, stderr=subprocess.PIPE)
    address = served.stdout.readline()
    served.send_signal(signal.SIGTERM)
    _, faults = served.communicate(timeout=60)
    count.told("ztso-page", address.startswith("http://127.0.0.1:") and served.returncode == 0, address + faults)


def whole_parts(count, share):
    """The pages that the commands name are there, and the page for the browser has all its parts."""
    rows = [line.split("\t") for line in (share / "docs/commands.tsv").read_text().splitlines()]
    named = sorted({row[4].split("#")[0] for row in rows if row[0] == "command"})
    count.same("pages that are named", [name for name in named if not (share / name).is_file()], [])
    parts = "tools/page_parts"
    wanted = [name for name in below(tree.TOP / parts) if not {"trials", "__pycache__"} & set(name.split("/"))]
    count.same("the parts of the page", below(share / parts), wanted)


def repairs(count, prefix, alone, whole):
    """A second call puts right what is missing, changed or of another version."""
    (prefix / "bin/ztso").unlink()
    (prefix / "lib/ztso/ztso").chmod(0o644)
    (prefix / "share/ztso/VERSION").write_text("0.0.1\n")
    (prefix / "share/man/man1/ztso.1").unlink()
    (prefix / "share/man/man1/ztso.1").symlink_to(prefix / "bin/ztso-explain")
    old = prefix / "share/ztso/old/page.md"
    old.parent.mkdir()
    old.write_text("of another version\n")
    with open(prefix / "share/ztso/installed", "a", encoding="ascii") as file:
        file.write("share/ztso/old/\nshare/ztso/old/page.md\n")
    status, said, faults = install("--prefix", prefix, "--program", alone)
    count.told("a second call", status == 0 and ", 4 of them new or put right\n" in said, said + faults)
    count.same("repairs", (contents(prefix) == whole, old.parent.exists()), (True, False))
    status, said, faults = install("--prefix", prefix, "--program", alone)
    count.told("a third call", status == 0 and ", 0 of them new or put right\n" in said, said + faults)


def taken_away(count, prefix, alone):
    """Nothing is left, except files of others with their folders."""
    own = prefix / "share/ztso/litmus/own.litmus"
    own.write_text("of the user\n")
    status, said, faults = install("--uninstall", "--prefix", prefix)
    count.told("says which folder stays",
               status == 0 and f"\n  {own.parent} stays" in said and said.count("\n") == 2, said + faults)
    count.same("leaves what is the user's", below(prefix),
               ["share", "share/ztso", "share/ztso/litmus", "share/ztso/litmus/own.litmus"])
    install("--prefix", prefix, "--program", alone)
    own.unlink()
    status, _, faults = install("--uninstall", "--prefix", prefix)
    # the folders that were there when it was installed again were made by nobody
    count.same("takes all away", (status, faults, below(prefix)), (0, "", ["share", "share/ztso", "share/ztso/litmus"]))
    for name in ("share/ztso/litmus", "share/ztso", "share", ""):
        (prefix / name).rmdir()
    install("--prefix", prefix, "--program", alone)
    install("--uninstall", "--prefix", prefix)
    count.same("leaves nothing", (prefix.exists(), prefix.parent.exists()), (False, True))
    status, said, faults = install("--uninstall", "--prefix", prefix)
    count.same("nothing to take away", (status, said, faults.count("\n")), (1, "", 1))


def refusals(count, folder, alone):
    """A line says what is wrong, and nothing was changed."""
    prefix = folder / "prefix"
    foreign = prefix / "bin/ztso"
    foreign.parent.mkdir(parents=True)
    foreign.write_text("of somebody else\n")
    refused(count, "a file of somebody else", prefix, str(foreign), "--program", alone)
    count.same("it stays alone", below(prefix), ["bin", "bin/ztso"])
    foreign.unlink()
    refused(count, "no program", prefix, "is no program", "--program", folder)
    refused(count, "no prefix", "", "--prefix", "--program", alone)
    (folder / "file").write_text("")
    refused(count, "a prefix that is a file", folder / "file", str(folder / "file"), "--program", alone)
    listed = prefix / "share/ztso/installed"
    listed.parent.mkdir(parents=True)
    for place in ("../victim", "/etc/victim", "share/../../victim"):
        listed.write_text(f"{place}\n")
        (folder / "victim").write_text("")
        refused(count, f"a list with {place}", prefix, str(listed), "--uninstall")
        count.told("the file stays", (folder / "victim").exists())


def links(count, folder, alone):
    """Nothing is written or removed where a symbolic link leads out of the prefix; one that stays inside is followed."""
    prefix, outside = folder / "linked", folder / "outside"
    outside.mkdir()
    prefix.mkdir()
    (prefix / "share").symlink_to(outside)
    refused(count, "a share that leads out", prefix, f"{prefix / 'share'} is a symbolic link", "--program", alone)
    count.same("nothing is written outside", (below(outside), below(prefix)), ([], ["share"]))
    (prefix / "share").unlink()
    install("--prefix", prefix, "--program", alone)
    for place in ("share", "lib/ztso"):
        moved = outside / Path(place).name
        (prefix / place).rename(moved)
        (prefix / place).symlink_to(moved)
        stood = below(outside)
        refused(count, f"taking away by {place}", prefix, f"{prefix / place} is a symbolic link", "--uninstall")
        count.same("nothing is removed outside", below(outside), stood)
        (prefix / place).unlink()
        moved.rename(prefix / place)
    (prefix / "bin").rename(prefix / "other")
    (prefix / "bin").symlink_to("other")
    status, _, faults = install("--uninstall", "--prefix", prefix)
    count.same("a link inside", (status, faults, below(prefix)), (0, "", ["bin", "other"]))
    (folder / "circle").mkdir()
    (folder / "circle/share").symlink_to("share")
    refused(count, "a link in a circle", folder / "circle", "share", "--program", alone)


def made_folders(count, folder, alone):
    """Folders have the usual rights, whatever the umask, and those above the prefix go too when they are empty."""
    for umask in (0o000, 0o077, 0o777):
        prefix = folder / f"umask-{umask:o}/above/prefix"
        status, said, faults = install("--prefix", prefix, "--program", alone, umask=umask)
        rights = {path.stat().st_mode & 0o777 for path in (folder / f"umask-{umask:o}", *prefix.parent.rglob("*"))
                  if path.is_dir()}
        count.same(f"rights by the umask {umask:o}", (status, rights), (0, {0o755}))
        keeps = umask == 0
        if keeps:
            (folder / f"umask-{umask:o}/own").write_text("of the user\n")
        status, said, faults = install("--uninstall", "--prefix", prefix)
        left = ["own"] if keeps else []
        count.same(f"folders above the prefix, {umask:o}", (status, faults, below(folder / f"umask-{umask:o}")), (0, "", left))
        count.same(f"the outermost one, {umask:o}", (folder / f"umask-{umask:o}").exists(), keeps)


def refused(count, name, prefix, why, *words):
    status, said, faults = install("--prefix", prefix, *words)
    count.told(name, (status, said, faults.count("\n")) == (1, "", 1) and why in faults, f"{status} {said}{faults}")
