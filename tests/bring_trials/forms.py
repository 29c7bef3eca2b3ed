"""C that a compiler makes something of: the texts of forms.texts and the files of examples/c, by gcc and clang."""

import re
import shutil
import tempfile
from pathlib import Path

from bring_parts import ROOT, Refused, columns, herd, images, instructions, litmus_texts, making, objects, search
from bring_parts.making import Way
from bring_parts.mappings import joined
from bring_trials import counting, hostile

import programs

# the texts, some of which are mappings of C, and the answers
FORMS, ANSWERS = (Path(__file__).resolve().with_suffix(suffix) for suffix in (".texts", ".tsv"))
COMPILERS = ("gcc", "clang")
# options of from-c, its status, and a part of what it prints
OPTIONS = [(["--flag=-O0"], 0, "-fno-ipa-icf -O0"), (["--flag=-no-such-flag"], 2, "fails"),
           (["--compiler", "clang -Wall"], 0, "clang version"), (["--compiler", "true"], 2, "true makes no object"),
           (["--compiler", "false"], 2, "said nothing"), (["--fences", "full"], 0, "--fences full"),
           (["--lines"], 0, "# 2: int P0(void) { return x")]
# C of which a mapping takes not every operation, and what is said of it
MAPPED = [("_Atomic unsigned long long x;\nint P0(void) { atomic_store_explicit(&x, 0x1ff, memory_order_release); return 0; }\n",
           "c.c:3: a mapped load or store has 1, 2 or 4 bytes"),
          ("_Atomic unsigned long long x;\nint P0(void) { return (int)atomic_load_explicit(&x, memory_order_acquire); }\n",
           "c.c:3: a mapped load or store has 1, 2 or 4 bytes"),
          ("_Atomic struct { int a, b; } x;\nint P0(void) {\n  return atomic_load(&x).a; }\n", "c.c:4: a mapped load or store has 1, 2 or 4 bytes"),
          ("_Atomic struct { short a, b; } x;\nint P0(void) { return atomic_load(&x).a; }\n", "c.c:3: a mapped load or store takes a number or"),
          ("_Atomic unsigned char x;\nint P0(void) { return atomic_fetch_add(&x, 1); }\n", "c.c:3: a mapped AMO has 4 bytes"),
          ("_Atomic unsigned char x; atomic_int *_Atomic p; _Atomic short h; _Atomic enum { A } e; atomic_int y;\n"
           "int P0(void) { atomic_store(&x, 1); atomic_store(&p, &y); atomic_store(&h, 2); atomic_store(&e, A); return atomic_load(&x); }\n", "")]
# where a form has states without end
STATES = 3000


def answer(path, way):
    """The outcomes of what a way makes of a file, or the first line of what it is refused for."""
    try:
        text = making.of_c(path, way)
    except Refused as refused:
        return None, "refused: " + str(refused).split("\n")[0]
    found = search.outcomes(text, 4, STATES)
    return text, (" ".join(map(joined, sorted(found.schedules))) + " and more" * found.cut).strip()


def mapped(count):
    """What is said of C that a mapping doesn't take."""
    with tempfile.TemporaryDirectory() as folder:
        for code, wanted in MAPPED:
            path = counting.write(folder, "c.c", f"#include <stdatomic.h>\n{code}// exists (0:a0=0)\n")
            for compiler in COMPILERS:
                text, came = answer(path, Way(compiler, mapping="ztso.h"))
                is_good = came.startswith(f"refused: {wanted}") if wanted else text
                count.told(f"a mapping by {compiler} of {code}", is_good, f"{came}, and {wanted} is wanted")


def sources():
    return sorted([*(ROOT / "examples/c").glob("*.c"), *(ROOT / "examples/c").glob("*.c.litmus")])


def written(folder):
    """The forms that are C, as files of the folder."""
    return [path for path in counting.write_all(folder, FORMS) if path.suffix != ".h"]


def part(count):
    """The forms have the answers of their table, and what is taken comes through from-herd unchanged."""
    with tempfile.TemporaryDirectory() as folder:
        answered(count, written(folder))


def answered(count, files):
    """What `part` says, of the forms as these files."""
    rows = [line.split("\t") for line in ANSWERS.read_text().splitlines()[1:]]
    asked = {(name, compiler): wanted for name, compiler, wanted in rows}
    every = {(path.name, compiler) for path in files for compiler in COMPILERS}
    count.told(f"{ANSWERS.name} has each form", set(asked) == every, "")
    jobs = [(path, compiler) for path in files + sources() for compiler in COMPILERS]
    taken = 0
    for path, compiler in jobs:
        text, came = answer(path, Way(compiler))
        taken += text is not None
        wanted, name = asked.get((path.name, compiler)), f"{path.name} by {compiler}"
        count.told(name, wanted in (None, came) and (wanted or text), f"{came}, and {wanted} is wanted")
        if text:
            count.told(f"{name}: from-herd leaves it", herd.rewritten(text) == (text, {}), "it was rewritten")
    print(f"  {taken} of {len(jobs)} compilations of {len(jobs) // 2} files taken")


def assembled(path, compiler):
    """For each instruction of a file's image that is no jump: its statement, the word that this assembles to, and the
    compiler's word."""
    with tempfile.TemporaryDirectory() as folder:
        modules, _, _ = making.modules_of([path], making.Way(compiler), folder, making.C)
        image = images.Image(images.linked(litmus_texts.complete(modules, compiler, folder), folder), folder)
        listing = objects.tool("objdump", "-d", image.path)
    raw = {int(at, 16): word for at, word in re.findall(r"^ *([0-9a-f]+):\t([0-9a-f]{8}) ", listing, re.MULTILINE)}
    for instruction in image.code:
        if instruction.name not in (*instructions.JUMPS, "jalr"):
            statement = columns.statement(instruction)
            yield statement, f"{programs.read(statement + chr(10))[0]:08x}", raw[instruction.at]


def words(count):
    """Each statement that is no jump assembles to the compiler's word, wherever a file is taken."""
    with tempfile.TemporaryDirectory() as folder:
        jobs = [(path, compiler) for path in written(folder) + sources() for compiler in COMPILERS]
        taken = [(path, compiler) for path, compiler in jobs if answer(path, Way(compiler))[0]]
        rows = [(path.name, *row) for path, compiler in taken for row in assembled(path, compiler)]
    other = [row for row in rows if row[2] != row[3]]
    count.told("statements assemble to the compiler's words", rows and not other, str(other[:3]))
    print(f"  {len(rows) - len(other)} of {len(rows)} statements that are no jumps assemble to the compiler's words")


def unusual(count):
    """Names, flags and compilers that are unusual."""
    c = "int x;\nint P0(void) { return x; }\n// exists (0:a0=0)\n"
    with tempfile.TemporaryDirectory() as folder:
        for name in ("a {b} c.c", "$(d) 'e' \"f\".c", "-o.c", "a\\b%s.c", "(*.c"):
            path = counting.write(folder, name, c)
            for compiler in COMPILERS:
                status, printed, error = counting.run("from-c", "--compiler", compiler, "--lines", "--", path)
                is_good = status == 0 and "2: int P0(void) { return x" in printed
                count.told(f"a file {name!r} by {compiler}", is_good, printed + error)
        path = counting.write(folder, "c.c", c)
        for options, status, told in OPTIONS:
            came, printed, error = counting.run("from-c", path, *options)
            count.told(f"from-c {options}", came == status and told in printed + error, f"{came} {printed}{error}")
        commands = Path(folder, "commands")
        commands.mkdir()
        Path(commands, "clang").symlink_to(shutil.which("clang"))
        status, told = hostile.with_path(commands, path, "--compiler", "clang")
        count.told("no binutils", status == 2 and "apt-get install binutils-riscv64-unknown-elf" in told, told)
