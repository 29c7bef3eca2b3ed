"""Objects that compilers make: the forms of object_forms.texts, C as objects of one's own, by flags of strangers, and each compressed
instruction."""

import re
import shutil
import tempfile
from collections import Counter
from pathlib import Path

from bring_parts import ROOT, Refused, compilers, instructions, making, search
from bring_parts.instructions import Instruction
from bring_parts.making import Way
from bring_parts.mappings import joined
from bring_parts.objects import tool
from bring_trials import forms
from bring_trials.counting import write, write_all

FORMS = Path(__file__).resolve().parent / "object_forms.texts"
ANSWERS = FORMS.with_suffix(".tsv")
C = ROOT / "examples/c"
# how strangers compile, after the flags that all have
COMMON = "-O2 -ffreestanding -march=rv32ia -mabi=ilp32 -g -c".split()
WAYS = [[], ["-mcmodel=medany"], ["-fPIC"], ["-O0"], ["-Os", "-g0"], ["-march=rv32imac"], ["-march=rv32imafdc", "-mabi=ilp32d"]]
# those that leave lengths to the linker
NEWER = [f"clang-{version}" for version in range(16, 23)]
STRANGERS = ("dekker", "seqlock", "spinlock", "ticket-lock")
TARGETS = {"gcc": [], "clang": ["--target=riscv32-unknown-elf"]}


def outcomes_of(text, states=forms.STATES):
    found = search.outcomes(text, 4, states)
    return (" ".join(map(joined, sorted(found.schedules))) + " and more" * found.cut).strip()


def answer(files, way, states=forms.STATES):
    """The outcomes of what is made of files, or the first line of what they are refused for."""
    try:
        return outcomes_of(making.made(files, way), states)
    except Refused as refused:
        return "refused: " + str(refused).split("\n")[0]


def part(count, rust):
    """The forms have the answers of their table. `rust` are the ways of compiling Rust that there are."""
    rows = [line.split("\t") for line in ANSWERS.read_text().splitlines()[1:]]
    ways = {**{name: Way(name) for name in TARGETS}, **rust}
    tried = [row for row in rows if row[1] in ways]
    left = len(rows) - len(tried)
    with tempfile.TemporaryDirectory() as folder:
        files = {path.name: path for path in write_all(folder, FORMS)}
        count.told(f"{ANSWERS.name} has each form", {name for name, _, _ in rows} == files.keys(), "")
        for name, by, wanted in tried:
            came = answer([files[name]], ways[by])
            count.told(f"{name} by {by}", came == wanted, f"{came}, and {wanted} is wanted")
    print(f"  {len(tried)} forms tried" + f", {left} left out, since --rust names no compiler for them" * bool(left))


# a header beside which a `string.h` lies that isn't the one it includes, and a file that includes the header
HEADERS = {"lib/ring.h": "#include <string.h>\nextern struct { int words[4]; } ring, other;\n\n"
                         "static __attribute__((noinline)) void put(int n) {\n  ring.words[0] = n;\n  ring.words[1] = n;\n}\n",
           "lib/string.h": "struct text { char *begin; };\n",
           "own.c": '#include "lib/ring.h"\n// 2\n// 3\n// 4\n// 5\n__typeof__(ring) ring, other;\nvoid P0(void) { put(5); }\n'
                    "void P1(void) { memcpy(&other, &ring, sizeof ring); }\n// exists (ring.words[0]=5)\n"}


def of_headers(count):
    """A header's function has the header's lines, and what it includes is the C library's."""
    for compiler in TARGETS:
        with tempfile.TemporaryDirectory() as folder:
            Path(folder, "lib").mkdir()
            for name, text in HEADERS.items():
                write(folder, name, text)
            try:
                made = making.made([str(Path(folder, "own.c"))], Way(compiler, lines=True))
            except Refused as refused:
                made = "\n".join([str(refused), *refused.before])
        rows = [line for line in made.splitlines() if "# ring.h:5: ring.words[0] = n" in line or "# ring.h:6: ring.words[1] = n" in line]
        count.told(f"a header's function by {compiler}", len(rows) == 2 and "# 7: void P0(void)" in made and "// " not in made, made)


def compiled(file, compiler, flags, folder):
    """An object of one's own of a C file."""
    module = Path(folder, "own.o")
    command = compilers.Compiler(compiler)
    compilers.output([*command.words, *TARGETS[command.family], *COMMON, *flags, "-o", module, file])
    return module


def strangers(count):
    """Objects by flags of strangers have the outcomes of examples/c, or are refused where parameters aren't known."""
    taken = 0
    for name in STRANGERS:
        for compiler in TARGETS:
            wanted = outcomes_of((C / f"{name}.{compiler}.litmus").read_text())
            for flags in WAYS:
                with tempfile.TemporaryDirectory() as folder:
                    module = compiled(C / f"{name}.c", compiler, flags, folder)
                    came = answer([module], Way(ask=str(C / f"{name}.c")), search.STATES)
                taken += came == wanted
                is_unknown = name == "spinlock" and "-g0" in flags and "P0 reads a0, and nothing says what it is" in came
                count.told(f"{name}.c by {compiler} {' '.join(flags)}", came == wanted or is_unknown, f"{came}, and {wanted} is wanted")
    print(f"  {taken} objects of strangers, of {len(STRANGERS) * len(TARGETS) * len(WAYS)}, with the outcomes of examples/c")


def newer(count):
    """What clang 16 and later makes of examples/c is taken, as sources and as objects of one's own."""
    for compiler in filter(shutil.which, NEWER):
        for path in forms.sources():
            came = answer([path], Way(compiler))
            count.told(f"{path.name} by {compiler}", not came.startswith("refused"), came)
        with tempfile.TemporaryDirectory() as folder:
            came = answer([compiled(C / "ticket-lock.c", compiler, [], folder)], Way(ask=str(C / "ticket-lock.c")))
        count.told(f"an object by {compiler}", not came.startswith("refused"), came)
    if not any(map(shutil.which, NEWER)):
        print(f"  not tried: {' or '.join(NEWER)}, of which none is here")


def own(count):
    """An object of one's own, of a file of examples/c whose condition asks for no local, gives from-c's text."""
    files = [path for path in forms.sources() if path.suffix == ".c" and not making.of_source(making.read_c(path)).kept]
    for path in files:
        for compiler in TARGETS:
            with tempfile.TemporaryDirectory() as folder:
                module = Path(folder, "own.o")
                compilers.Compiler(compiler).compile(path, module)
                text = text_of(making.made([module], Way(compiler, ask=str(path))))
            wanted = text_of((C / f"{path.stem}.{compiler}.litmus").read_text())
            count.told(f"{path.name} by {compiler} as an object", text == wanted, text)
    print(f"  {2 * len(files)} objects of examples/c give the text of from-c")


def text_of(text):
    """A text without its comment."""
    return re.sub(r"\(\*.*?\*\)\n", "", text, flags=re.DOTALL)


def half_words(count):
    """Each half word that is a compressed instruction: what it is expanded to disassembles as objdump has it."""
    with tempfile.TemporaryDirectory() as folder:
        every = [value for value in range(1 << 16) if value & 3 != 3]
        listings = [listed(folder, [f".insn 2, {value}" for value in every], "rv32ic", options)
                    for options in ("numeric", "numeric,no-aliases")]
        pairs = [(shown, Instruction(at, name, operands, "", 0)) for (_, *shown), (at, name, operands) in zip(*listings)]
        made = [(shown, before, instructions.expanded(before)) for shown, before in pairs]
        # a shift by more than 31 is none of RV32's
        made = [each for each in made if each[2] is not each[1] and not re.fullmatch(r"s[lr][la]i .*,0x[2-3].", written(each[2]))]
        jumps = [each for each in made if each[2].name in instructions.JUMPS]
        count.told("jumps keep their goals", all(after.operands.split(",")[-1] == before.operands.split(",")[-1]
                                                 for _, before, after in jumps) and len(jumps) == 8192, str(len(jumps)))
        # of those that write x0, which are hints, it is enough that they do nothing else
        hints = [each for each in made if is_hint(each[2])]
        others = [each for each in made if each[2].name not in instructions.JUMPS and not is_hint(each[2])]
        again = listed(folder, [written(after) for _, _, after in others], "rv32i", "numeric")
    strange = Counter((before.name, *shown, name, operands) for (shown, before, _), (_, name, operands) in zip(others, again)
                      if shown != [name, operands] and (before.name, shown[0], name) not in ALIASES)
    count.told("half words", len(again) == len(others) and not strange, str(strange.most_common(5)))
    print(f"  {len(made)} of {len(every)} half words are expanded: {len(jumps)} jumps, {len(hints)} hints, {len(others)} others")


# a compressed instruction, how objdump shows it, and how what stands for it: another alias of the same
ALIASES = {("c.mv", "mv", "add"), ("c.addi16sp", "add", "mv"), ("c.addi", "add", "mv"), ("c.addi", "addi", "mv")}


def is_hint(instruction):
    return instruction.operands.startswith("x0,") and instruction.name in ("addi", "slli", "lui", "add")


def written(instruction):
    return f"{instruction.name} {instruction.operands}"


def listed(folder, lines, march, options):
    """Address, name and operands of each instruction of these lines of assembly, as objdump shows it."""
    source, module = Path(folder, "x.s"), Path(folder, "x.o")
    source.write_text("\n".join(lines) + "\n")
    tool("as", f"-march={march}", "-mabi=ilp32", "-o", module, source)
    rows = map(instructions.LINE.match, tool("objdump", "-d", "-z", "--no-show-raw-insn", "-M", options, module).splitlines())
    return [(int(row[1], 16), row[2], (row[3] or "").strip()) for row in rows if row]
