"""What an answer about queues was asked of, and what judged it: two lines, so that a saved answer says it."""

import re
import shlex
from dataclasses import dataclass
from pathlib import Path

from bring_parts import INSTALLED, REFERENCE, ROOT, listed, provenance, typed

MODEL = "under Ztso (RISC-V's total store order)"
PROVED = "proved, and built by the kit"
# what a verdict says of a program that isn't
UNPROVED = "by a program of which nothing is proved"
SECOND = "the second implementation, of which nothing is proved"
# the comment below the header of a text that from-c or from-object made: what was typed, then each compiler's version and flags
MADE = re.compile(r"RISCV .*\n\(\* tools/from-(?:c|object) (.*?)\*\)", re.S)
VERSIONS = re.compile(r"(?P<gcc>\S*(?:gcc|g\+\+)\S*) \([^()]*\) (?P<of_gcc>\d[\w.]*)|(?P<clang>clang) version (?P<of_clang>\d[\w.]*)"
                      r"|(?P<rustc>rustc) (?:version )?(?P<of_rustc>\d[\w.]*)|by (?P<gnu>GNU \S+) (?P<of_gnu>\d[\w.]*)")
LEVEL = re.compile(r"(?<!\S)(-O\w*|-C opt-level=\w+)(?!\S)")
# a compiler's name and version as a verdict has them: without what it compiles for, and the version's first two numbers
SHORT = re.compile(r"^(?:\S*-)?(gcc|g\+\+) |(?<= )([0-9]+\.[0-9]+)\.[\w.]+")
# the line of a source after one that names an instruction
NOTED = re.compile(r"    P(?P<hart>\d+) (?:(?P<file>[\w.+-]+):)?(?P<line>\d+): (?P<text>.*)")
# what a header's name ends in
HEADERS = (".h", ".hh", ".hpp", ".hxx", ".inc", ".ipp")
# a line of a source that tests how wide registers are, a header that one includes, and files that are no sources
WIDTH = re.compile(r"^[ \t]*#[ \t]*(?:el)?if\w*\b.*\b(__riscv_xlen|__LP64__|__SIZEOF_POINTER__)\b|\b(target_pointer_width)\b")
INCLUDED = re.compile(r'^[ \t]*#[ \t]*include[ \t]*["<](?:.*/)?([^/">]+)[">]', re.M)
BINARY = (".o", ".litmus")
# options by which a text has other code than the compiler makes by itself
OPTION = re.compile(r" --(?:mapping (?P<mapping>\S+)|fences (?P<fences>none|full)(?!\S)|init (?P<init>\S+)|input (?P<input>\S+))")
FENCES = {"none": "", "full": " that aren't full"}


def compilers_in(comment):
    """The compilers of a text's comment, each with its version and how far it optimizes."""
    found = list(VERSIONS.finditer(comment))
    for shape, end in zip(found, [*(each.start() for each in found[1:]), len(comment)]):
        name, version = (word for word in shape.groups() if word)
        # of several levels a compiler takes the last one
        level = (LEVEL.findall(comment[shape.end():end]) or [""])[-1]
        yield " ".join(filter(None, (name, version, level)))


def made_of(text):
    """The sources and the compilers that a text's comment names, each a list, or none."""
    shape = MADE.match(text)
    if not shape:
        return [], []
    try:
        sources = shlex.split(shape[1].partition("\n")[0].partition(" --")[0])
    except ValueError:
        return [], []  # no tool wrote this
    return sources, [*dict.fromkeys(compilers_in(" ".join(shape[1].split())))]


def options_of(text, name):
    """What stands after an option in the comment that says how a text was made."""
    shape = MADE.match(text)
    return [option[name] for option in OPTION.finditer(" ".join(shape[1].split())) if option[name]] if shape else []


def opened(text):
    """What is said of init functions that ran before the harts, and of places from which any value may be loaded."""
    if inits := options_of(text, "init"):
        yield f"after {listed([f'{name}()' for name in inits])}"
    if inputs := options_of(text, "input"):
        yield f"with any value in {listed(inputs)}"


def changes_of(text):
    """What is said of options by which a text has other code than the compiler makes by itself, or opens otherwise."""
    yield from (f", by the mapping {mapping}" for mapping in options_of(text, "mapping"))
    yield from (f", without its fences{FENCES[fences]}" for fences in options_of(text, "fences"))
    yield from (f", {each}" for each in opened(text))


def sources_of(files, text, is_source):
    """Where the sources lie whose lines a text has, by their names: those that are asked about, or that its comment names, beside it, and the
    headers beside these. The one whose lines have no name there is called None, if it is known."""
    names = [Path(file).name for file in files] if is_source else made_of(text)[0]
    places = [Path(file) for file in files] if is_source else [Path(files[0]).with_name(name) for name in names]
    folders = {place.parent for place in places if place.parent.is_dir()}
    headers = {path.name: path for folder in folders for path in folder.iterdir() if path.suffix in HEADERS}
    found = headers | {name: place for name, place in zip(names, places) if place.is_file()}
    titled = [name for name in names if Path(name).stem == text.partition("\n")[0].removeprefix("RISCV ")]
    first = names[0] if len(names) == 1 else titled[0] if len(titled) == 1 else None
    return {**found, None: found[first]} if first in found else found


def headers_in(flags):
    """The headers in the folders of -I, and in those that these have, by their names."""
    folders = [Path(flag[2:]) for flag in flags if flag.startswith("-I")]
    return {path.name: path for folder in folders for pattern in ("*/*", "*") for path in folder.glob(pattern) if path.suffix in HEADERS}


def width_tests(files, sources):
    """A line for the first one, of sources and of the headers that they include, that tests how wide registers are."""
    todo = [Path(file) for file in files]
    for path in todo:
        if path.suffix in BINARY or not path.is_file():
            continue
        text = path.read_text(errors="replace")
        todo += [found for name in INCLUDED.findall(text) if (found := sources.get(name)) and found not in todo]
        for number, line in enumerate(text.split("\n"), 1):
            if shape := WIDTH.search(line):
                yield f"{path.name}:{number} tests {shape[1] or shape[2]}: only its code for RV32 was asked about"
                return


def to_source(sources, line):
    """A line of an answer that has a hart and a line of a source, so that an editor jumps there, if it is known where the source lies."""
    shape = NOTED.fullmatch(line)
    place = sources.get(shape["file"]) if shape else None
    return f"{place}:{shape['line']}: P{shape['hart']}: {shape['text']}" if place else line


def in_short(compiler):
    """A compiler as a verdict names it: `gcc 12.2 -O2`."""
    return SHORT.sub(lambda shape: f"{shape[1]} " if shape[1] else shape[2], compiler)


def where(files, text, is_source):
    """How a verdict ends: which code it is about."""
    sources, compilers = made_of(text)
    compiled = [Path(file).name for file in files] if is_source else sources
    if not compiled or not compilers:
        return f"in {listed([Path(file).name for file in files])}"
    by = compiled_by(compiled, [*dict.fromkeys(map(in_short, compilers))], text)
    return by if is_source else f"in {Path(files[0]).name}, by its comment {by}"


def compiled_by(compiled, compilers, text):
    """`as gcc compiles ring.c`, and by which options it has other code than that."""
    return f"as {listed(compilers)} compile{'s' * (len(compilers) == 1)} {listed(compiled)}{''.join(changes_of(text))}"


def question(files, text, is_source):
    """What is asked about: the files, and as which machine code. What a text's comment says of itself is said to be its."""
    sources, compilers = made_of(text)
    names = [Path(file).name for file in files]
    compiled = names if is_source else sources
    if not compiled or not compilers:
        return listed(names)
    as_code = f"{listed(compiled)} as {listed(compilers)} compile{'s' * (len(compilers) == 1)} {'it' if len(compiled) == 1 else 'them'}"
    as_code += "".join(changes_of(text))
    return as_code if is_source else f"{names[0]} (by its comment {as_code})"


def judge(program):
    """What a program is called in an answer: with its version, if it is this house's own, and with what built it."""
    program = Path(program)
    if program.resolve() == REFERENCE.resolve():
        return f"ztso: {SECOND}"
    own = [ROOT / name for name in (provenance.KEPT, *provenance.STOCK)] + [INSTALLED]
    version = f" {(ROOT / 'VERSION').read_text().strip()}" if program.resolve() in [each.resolve() for each in own] else ""
    return f"ztso{version}: {provenance.SAID.get(provenance.kind_of(program), PROVED)}"


def command(words):
    """The call, as it was typed."""
    return shlex.join([typed("queue"), *words])


@dataclass(frozen=True)
class About:
    """What an answer was asked of: the question, the compilers, what judged it, the call, and how words open."""
    question: str
    where: str
    compilers: tuple
    judge: str
    command: str
    opened: tuple

    @staticmethod
    def of(files, text, is_source, program, words):
        return About(question(files, text, is_source), where(files, text, is_source), tuple(made_of(text)[1]), judge(program), command(words),
                     tuple(opened(text)))

    def verdict(self, line):
        """A verdict as a line that stands alone."""
        return f"{line}, {MODEL}, {self.where}" + f" ({UNPROVED})" * (not self.judge.endswith(PROVED))

    def asked(self):
        return f"{self.question}, {MODEL}, by {self.judge}"

    def lines(self):
        return [f"asked: {self.asked()}", f"command: {self.command}"]

