"""The options of tools/from-c and tools/from-object, and the text that they make by them."""

import re
import shlex
import sys
import tempfile
from dataclasses import dataclass, replace
from pathlib import Path

from bring_parts import (ROOT, Refused, c_lines, c_source, c_tests, columns, compilers, complain, dwarf, languages, litmus_texts, objects, put,
                         questions, queues, rust, text_of)
from bring_parts.languages import C, CXX, OBJECT, RUST

# the mappings, each of which includes this one at its end
MAPPINGS, BASE = ROOT / "examples/mappings", "mapping.h"
# what mapping.h defines
GUARD = "MAPPING_H"
# how the text before a row's own instruction ends, and how that after it begins: at the end of a line of assembly, or with a label or comment
ENDED, BEGUN = re.compile(r"(?:^|\\n|;|:)(?:\\t|\s)*$"), re.compile(r"(?:\\t|\s)*(?:\\n|;|#|$)")
LONGEST = 44
# the definition of the first hart's function
FIRST = re.compile(r"\bP0\s*\([^;{}]*\)[^;{}()]*\{")
# what a source asks in which nothing is asked: each text has a word of this name
UNASKED = "\n// exists (null=0)\n"


@dataclass(frozen=True)
class Way:
    """How files are compiled and brought."""
    compiler: str = "gcc"
    mapping: str = None
    fences: str = "all"
    flags: tuple = ()
    lines: bool = False
    harts: tuple = ()
    ask: str = None
    rustc: str = "rustc"
    rust_core: str = None
    # functions that run before the harts, and places that any value may be loaded from
    inits: tuple = ()
    inputs: tuple = ()
    # whether a source may ask nothing
    unasked: bool = False

    @staticmethod
    def of(asked):
        """By the words of a command line; from-c has some of them."""
        harts = tuple(filter(None, getattr(asked, "harts", "").split(",")))
        own = {name: getattr(asked, name) for name in ("ask", "rustc", "rust_core") if hasattr(asked, name)}
        own |= {"inits": tuple(asked.init), "inputs": tuple(asked.input)}
        return Way(asked.compiler, asked.mapping, asked.fences, tuple(asked.flag), asked.lines, harts, **own)

    def words(self, with_folder=False, is_compiled=True):
        """The options as they are typed, with the folders of files or without, and without a compiler where none is asked."""
        def file(name):
            return name if with_folder else Path(name).name
        words = ["--compiler", self.compiler] if is_compiled else []
        words += ["--mapping", file(self.mapping)] if self.mapping else []
        words += ["--rustc", self.rustc] if self.rustc != "rustc" else []
        words += ["--rust-core", file(self.rust_core)] if self.rust_core else []
        words += ["--ask", file(self.ask)] if self.ask else []
        words += ["--harts", ",".join(self.harts)] if self.harts else []
        words += ["--fences", self.fences] if self.fences != "all" else []
        words += [word for option, names in (("--init", self.inits), ("--input", self.inputs)) for name in names for word in (option, name)]
        words += [f"--flag={flag}" for flag in self.flags] + ["--lines"] * self.lines
        return shlex.join(words)


def add_options(words, **compiler):
    """The options of a tool that writes a text; `compiler` says how --compiler is taken, if it may stand more than once."""
    words.add_argument("-o", dest="output")
    add_ways(words, **compiler)


def add_ways_of_objects(words):
    """The options by which objects and sources of all languages are brought."""
    words.add_argument("--ask")
    words.add_argument("--harts", default="")
    words.add_argument("--rustc", default="rustc")
    words.add_argument("--rust-core")


def add_ways(words, **compiler):
    """The options by which sources are compiled and brought."""
    words.add_argument("--compiler", **(compiler or {"default": "gcc"}))
    words.add_argument("--mapping")
    words.add_argument("--fences", choices=columns.FENCES, default="all")
    words.add_argument("--flag", action="append", default=[])
    words.add_argument("--init", action="append", default=[])
    words.add_argument("--input", action="append", default=[])
    words.add_argument("--lines", action="store_true")


def put_text(tool, asked, make):
    """Writes the text that is made, where the words of the command line say, and answers the exit status."""
    try:
        text = make()
        if asked.output:
            put(asked.output, text)
    except Refused as refused:
        complain(tool, with_name(asked.file if tool == "from-c" else asked.files[0], refused), before=refused.before)
        return 2
    if not asked.output:
        sys.stdout.write(text)
    return 0


def with_name(file, refused):
    """What is refused, with the name of the first file before it."""
    return str(refused) if str(refused).startswith(f"{file}: ") else f"{file}: {refused}"


def mapping_of(name):
    """The file of a mapping, which may be one of examples/mappings."""
    for path in (Path(name), MAPPINGS / name):
        if path.is_file():
            return path.resolve()
    names = " ".join(path.name for path in sorted(MAPPINGS.glob("*.h")) if path.name != BASE)
    raise Refused(f"there is no mapping {name}: examples/mappings has {names}")


def read_c(file):
    """The source in a C file."""
    return c_source.read(text_of(file), Path(file).name)


def of_c(file, way):
    """The litmus text that a compiler makes of a C file."""
    return made([file], way, "from-c", C)


def made(files, way, tool="from-object", language=None):
    """The litmus text of files, each of the language that its suffix says, or all of one."""
    return brought(files, way, tool, language)[0]


def brought(files, way, tool="from-object", language=None):
    """That text, and its words of memory."""
    names = " ".join(shlex.quote(Path(file).name) for file in files)
    with tempfile.TemporaryDirectory() as folder:
        modules, question, (told, sources) = modules_of(files, way, folder, language)
        is_compiled = any((language or languages.known(file)) not in (OBJECT, RUST) for file in files)
        told = [f"tools/{tool} {names} {way.words(is_compiled=is_compiled)}".rstrip(), *told]
        return litmus_texts.litmus_text(modules, question, way, noted(sources) if way.lines else None, told, tuple(sources))


def modules_of(files, way, folder, language=None):
    """The objects of files, and what they ask; then the lines that say how they were made, and the sources' texts by their
    names, that of the question first."""
    kinds = {file: language or languages.known(file) for file in files}
    sources = [file for file in files if kinds[file] != OBJECT]
    begins = [file for file in sources if way.unasked and FIRST.search(text_of(file))]
    asking = way.ask or next(iter(begins + sources), None)
    # where nothing is asked the harts may be in any file, and have any names
    is_elsewhere = way.unasked and (way.harts or len(files) > 1 and not begins)
    try:
        text, question, c = asked_in(asking or files[0], CXX if is_elsewhere and kinds.get(asking) == C else kinds.get(asking), way)
    except Refused as refused:
        raise Refused(with_name(asking, refused) if asking in files[1:] else str(refused), refused.before) from None
    modules, told = [], []
    for at, file in enumerate(files):
        own = way if kinds[file] != RUST or set(kinds.values()) <= {RUST, OBJECT} else replace(way, flags=())
        module, said = module_of(file, kinds[file], own, Path(folder, f"module{at}"), c if file == asking else None)
        modules.append(module)
        told += [line for line in said if line not in told]
    others = {Path(file).name: text_of(file) for file in files if kinds[file] != OBJECT and file != asking}
    return modules, question, (told, {question.file: text, **others})


def asked_in(asking, kind, way):
    """The text of a file, the question in it, and its source if it is C. An object has no text."""
    if kind is None and not way.ask:
        if not way.unasked:
            raise Refused("objects have no comments: --ask FILE names a file whose comments have the question, as "
                          "`// exists (0:a0=0 /\\ 1:a0=0)`")
        return "", questions.of_text(UNASKED, asking), None
    text = text_of(asking)
    try:
        return text, *question_in(text, asking, kind, way)
    except c_source.NoCondition:
        if not way.unasked:
            raise
    return text, *question_in(text + UNASKED, asking, kind, way)


def question_in(text, path, kind, way):
    """The question in a file's text, and its source if it is C."""
    c = c_source.read(text, Path(path).name, lambda code: preprocessed(code, path, way)) if kind == C else None
    return (of_source(c), c) if c else (questions.of_text(text, path), None)


def preprocessed(code, path, way):
    """What the compiler makes of C before it compiles it, or None if it complains: it does so again when it compiles."""
    with tempfile.TemporaryDirectory() as folder:
        source = Path(folder, "code.c")
        source.write_text(code)
        try:
            return compilers.Compiler(way.compiler).preprocessed(source, folders_of(path, way), [*way.flags, *of_mapping(way)])
        except Refused:
            return None


def of_mapping(way):
    """The flags by which C is compiled by a mapping."""
    return ["-include", str(mapping_of(way.mapping))] if way.mapping else []


def folders_of(path, way):
    """Where a file's headers are looked for. A mapping of one's own finds what it includes."""
    return [Path(path).resolve().parent, *[MAPPINGS] * bool(way.mapping), queues.HEADERS]


def of_source(source):
    """The question of a C file, with the registers that keep the locals it asks for."""
    kept = {(hart, name): register for hart, each in enumerate(c_tests.results_of(source)) for name, register in each.items()}
    return questions.Question(source.name, source.file, source.settings, source.words, source.ending, kept)


def module_of(file, language, way, module, c=None):
    """The object of a file, and what is said of how it was made. `c` is the source of one in C that asks for locals."""
    said = []
    if language == OBJECT:
        module = Path(file)
    elif language == RUST:
        version, flags = rust.compile_to(file, module, way.rustc, way.rust_core, way.flags)
        said = [version, shlex.join(flags)]
    else:
        said = by_compiler(file, language, way, module, c)
    if language != OBJECT and not module.is_file():
        raise Refused(f"{way.rustc if language == RUST else way.compiler} makes no object")
    try:
        objects.check(module)
    except Refused as refused:
        raise Refused(f"{Path(file).name}: {refused}") from None
    return module, said or [f"{Path(file).name}: by {each}" for each in dwarf.producers_of(module)]


def by_compiler(file, language, way, module, c):
    """Compiles a file, and returns what is said of it."""
    compiler, written = compilers.Compiler(way.compiler), rewritten(file, module, c)
    if way.mapping and language in languages.MAPPED:
        check_rows(way.mapping)
    way = way if language in languages.MAPPED else replace(way, mapping=None)
    folders, mapped = folders_of(file, way), of_mapping(way)
    missing = missing_rows(compiler, way.mapping, folders) if mapped else []
    try:
        flags = compiler.compile(written, module, [*way.flags, *mapped], folders, language)
    except Refused as refused:
        if missing:
            raise Refused(f"{refused}, and {way.mapping} has no row {', '.join(missing)}", refused.before) from None
        raise
    return [compiler.version(), " ".join(each for each in flags if each not in mapped)]


def rewritten(file, module, c):
    """The file that is compiled: one in C that asks for locals is written anew beside the module, in which they are kept."""
    if not c:
        return file
    written = module.with_name(f"{module.name}.c") / c.file
    written.parent.mkdir()
    written.write_text(c_tests.c_text(c, c_tests.results_of(c)))
    return written


def atomics_left(file, language, way):
    """How many atomic operations of a file a compiler makes by itself, and no mapping."""
    with tempfile.TemporaryDirectory() as folder:
        module = Path(folder, "module")
        c = asked_in(file, language, replace(way, unasked=True))[2]
        return compilers.Compiler(way.compiler).atomics(rewritten(file, module, c), module, [*way.flags, *of_mapping(way)], folders_of(file, way), language)


def check_rows(name):
    """Refuses a mapping in which a row's load or store stands in one line with another instruction."""
    text = text_of(mapping_of(name)).replace("\\\n", " ")
    for row, own, body in re.findall(r"^[ \t]*#[ \t]*define[ \t]+((?:LOAD|STORE)_\w+)\((\w+)\)(.*)", text, re.MULTILINE):
        before = re.search(rf'"((?:[^"\\]|\\.)*)"\s*{own}\b', body)
        after = re.search(rf'\b{own}\s*"((?:[^"\\]|\\.)*)"', body)
        if before and not ENDED.search(before[1]) or after and not BEGUN.match(after[1]):
            raise Refused(f'{name}: {row}: rows need \\n\\t between instructions, as in {own} "\\n\\tfence r,rw"')


def missing_rows(compiler, name, folders):
    """The rows of ztso.h that a mapping doesn't define. It is refused if it doesn't include mapping.h: the compiler's own
    operations would be taken in place of its rows."""
    try:
        defined = compiler.macros(mapping_of(name), folders)
    except Refused:
        return []  # the compiler says it again, of the C file
    if "__STDC__" in defined and GUARD not in defined:
        raise Refused(f'{name} doesn\'t end with #include "{BASE}", so none of its rows is used')
    rows = re.findall(r"^#define (\w+)", text_of(MAPPINGS / "ztso.h"), re.MULTILINE)
    return [row for row in rows if row not in defined]


def noted(sources):
    """What gives for each hart the comments beside its instructions: the number of the line in the first source, and its text
    where it is another than the one before; lines of others have their names."""
    first, lines = next(iter(sources)), {name: text.split("\n") for name, text in sources.items()}

    def lines_of(instruction):
        if instruction.file not in lines:
            lines[instruction.file] = Path(instruction.path).read_text(errors="replace").split("\n") if instruction.path else ()
        return lines[instruction.file]

    def hart():
        before = None

        def note(instruction):
            nonlocal before
            there, place = lines_of(instruction), (instruction.file, instruction.line)
            if not 1 <= instruction.line <= len(there):
                return instruction.where()
            is_same, before = place == before, place
            text = c_lines.in_cell(there[instruction.line - 1])
            text = text if len(text) <= LONGEST else text[:LONGEST - 2] + ".."
            number = str(instruction.line) if instruction.file == first else instruction.where()
            return number if is_same or not text else f"{number}: {text}"
        return note
    return hart
