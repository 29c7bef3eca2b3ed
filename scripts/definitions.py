"""The definitions of specs/ and the clauses that cite them, as scripts/make-promises and scripts/definition read them.

A name is looked up as `use` lines bring it; if a variable is spelled like a definition that its file knows, it is taken for one.
"""

import re
from functools import lru_cache
from pathlib import Path
from typing import NamedTuple

ROOT = Path(__file__).resolve().parent.parent

USE = re.compile(r"^(?:(?:unfoldable )?pub )?use (?P<module>[\w.]+?)(?:\.\{(?P<names>[^}]*)\})?(?: as (?P<alias>\w+))?$")
HEAD = re.compile(r"^(?:(?:abbrev|unfoldable|opaque|pub|record|data)\s+)+(?P<name>[^\s:({]+)")
MADE_BY = re.compile(r"^(?:pub )?(?P<names>[^:({]+) :")  # constructors of a `data`
OTHER = re.compile(r"^(?:pub mod|infix[lr]?) ")  # what defines nothing: a file of a folder, and how an operator binds
NAME = re.compile(r"[^\W\d][\w'-]*(?:\.[^\W\d][\w'-]*)*")
DECLARED = re.compile(r"^Rattle\.(?P<crate>\w+)\.specs\.declared\.(?P<module>[\w.]+)$")
DEEPER = 2  # how much further a definition in a `module _ (..) where` is indented


# ---- definitions

class Definition(NamedTuple):
    """The numbers, from 0 on, of a definition's lines and of the `module` lines around it, without those of comments."""
    lines: list
    around: list


class Definitions:
    """A file of specs/: what its `use` lines bring; its definitions, also those in a `module _ (..) where`; which `data` each
    constructor makes; and the numbers of the lines that are of no definition."""

    def __init__(self, path):
        self.path, self.lines = path, path.read_text().split("\n")
        self.names, self.modules, self.items, self.makes, self.unknown = {}, {}, {}, {}, []
        name, around = None, []  # the definition that may go on, and the modules, each with how far it is indented
        for numbers, indent, text in code_of(self.lines):
            around = [module for module in around if module[0] < indent]
            depth = indent - DEEPER * len(around)
            if depth == 0 and text.startswith("module "):
                name, around = None, [*around, (indent, numbers)]
            elif depth == 0 and USE.match(text):
                self.take(USE.match(text))
            elif depth == 0 and HEAD.match(text) and not OTHER.match(text):
                name = HEAD.match(text)["name"]
                self.items[name] = Definition(numbers, [number for _, lines in around for number in lines])
            elif name and (depth > 0 or depth == 0 and (text.startswith("}") or is_of(name, text))):
                self.items[name].lines.extend(numbers)
                if depth == DEEPER and MADE_BY.match(text) and self.is_data(name):
                    self.makes.update(dict.fromkeys(MADE_BY.match(text)["names"].split(), name))
            elif not (depth == 0 and OTHER.match(text)):
                self.unknown.extend(numbers)

    def is_data(self, name):
        return " data " in f" {self.lines[self.items[name].lines[0]].partition(name)[0]}"

    def take(self, used):
        if used["names"] is None:
            module = used["module"]
            self.modules[used["alias"] or module.rsplit(".", 1)[1]] = module
        for word in filter(None, re.split(r",\s*", used["names"] or "")):
            name, _, alias = word.partition(" as ")
            self.names[alias or name] = (used["module"], name)

    def text(self, name):
        """A definition and the `module` lines around it, without comments."""
        item = self.items[name]
        return "\n".join(re.sub(r"--.*", "", self.lines[number]) for number in (*item.around, *item.lines))

    def reached(self, name):
        """What a definition of this file names, as `source_of` finds it."""
        text = self.text(name)
        for word in set(NAME.findall(text)):
            first, _, rest = word.partition(".")
            if first in self.modules and rest:
                yield source_of(self.modules[first], rest.split(".")[0])
            elif first in self.names:
                yield source_of(*self.names[first])
            elif first in self.items and first != name:
                yield self.path, first
        for known in (*self.names, *self.items):
            if "◌" in known and known != name and is_of(known, text):
                yield source_of(*self.names[known]) if known in self.names else (self.path, known)


def code_of(lines):
    """The lines without empty ones and comments: the numbers of each, how far it is indented, and its text. The lines of one
    `module _ (..) where` are one."""
    numbers, indent, text = [], 0, ""
    for number, line in enumerate(lines):
        if line.strip() and not line.strip().startswith("--"):
            indent = indent if numbers else len(line) - len(line.lstrip())
            numbers, text = [*numbers, number], f"{text} {line.strip()}".strip()
            if text.endswith("where") or not text.startswith("module "):
                yield numbers, indent, text
                numbers, text = [], ""


def is_of(name, text):
    """Whether a text has all parts of an operator, or begins with another name, as the clauses of a definition do."""
    if "◌" in name:
        return all(part in text for part in name.split("◌") if part)
    return text.partition(" ")[0] == name


@lru_cache(None)
def path_of(module):
    """The file of specs/ that a module is, or that specs/Lib.antt passes on by this name; or None: one of std, or what Rust declares."""
    parts = module.split(".")
    if parts[2:3] != ["specs"]:
        return None
    folder = ROOT / "crates" / parts[1] / "specs"
    path, all_files = folder / ("/".join(parts[3:] or ["Lib"]) + ".antt"), folder / "Lib.antt"
    if path.exists():
        return path
    passed = definitions(all_files).modules.get(parts[3]) if len(parts) == 4 and all_files.exists() else None
    return passed and path_of(passed)


@lru_cache(None)
def definitions(path):
    return Definitions(path)


@lru_cache(None)
def source_of(module, name):
    """The file and the item that a name of a module stands for, through the files that pass it on, or None where it is std's. Of a
    constructor it is its `data`, as of a module with the name of that."""
    path, (front, _, last) = path_of(module), module.rpartition(".")
    if path is None and path_of(front) and last in definitions(path_of(front)).items:
        return path_of(front), last
    if path is None:
        declared = declared_at(module)
        return declared and (declared[0], declared[1] or name)
    known = definitions(path)
    if name in known.names and name not in known.items:
        return source_of(*known.names[name])
    return path, name if name in known.items else known.makes.get(name, name)


@lru_cache(None)
def declared_at(module):
    """The Rust file and the type, or the constants, that a declared module stands for."""
    found = DECLARED.match(module)
    if not found or not (ROOT / "crates" / found["crate"]).exists():
        return None
    words = [word for word in found["module"].split(".") if word != "TheVariants"]
    name = words[-1] if words[-1][0].isupper() and words[-1] != "TheConstants" else None
    modules = [word for word in words if word[0].islower()]
    path = ROOT / "crates" / found["crate"] / "src" / ("/".join(modules or ["lib"]) + ".rt")
    return (path, name) if path.exists() else None


@lru_cache(None)
def rust_lines(path, name):
    """The numbers, from 0 on, of the lines of a struct, an enum or a constant."""
    taken = []
    for number, line in enumerate(path.read_text().split("\n")):
        if not taken and re.match(rf"\s*pub (?:struct|enum|const) {re.escape(name)}\b", line):
            taken.append(number)
            if line.rstrip().endswith((";", "}")) or "{" not in line:
                break
        elif taken:
            taken.append(number)
            if line.startswith("}"):
                break
    return taken


def order_of_crates():
    lines = (ROOT / "crates.txt").read_text().splitlines()
    return [re.split(r"[ :]", line)[0] for line in lines if line and not line.startswith("#")]


def crate_of(path):
    return path.relative_to(ROOT / "crates").parts[0]


# ---- what has to be read

def reading(begin):
    """Each file to read for these definitions, with the names in it and the numbers of the lines of each, comments aside."""
    waiting, found = [source_of(module, name) for module, name in begin], {}
    while waiting:
        path, name = waiting.pop()
        if name in found.get(path, {}):
            continue
        if path.suffix == ".rt":
            lines = path.read_text().split("\n")
            read = {number for number in rust_lines(path, name) if not lines[number].strip().startswith("//")}
        elif name in definitions(path).items:
            known = definitions(path)
            read = {*known.items[name].lines, *known.items[name].around}
            waiting += filter(None, known.reached(name))
        else:
            continue
        if read:
            found.setdefault(path, {})[name] = read
    return found


def how_long(found):
    """How many lines these files have to read."""
    return sum(len(set().union(*names.values())) for names in found.values())


# ---- comments

def line_of(path, name):
    """The number, from 0 on, of the line with which a definition or a type of Rust begins."""
    if path.suffix == ".antt":
        return definitions(path).items[name].lines[0]
    begins = re.compile(rf"\s*pub (?:struct|enum|trait|const|type) {re.escape(name)}\b")
    return next(number for number, line in enumerate(path.read_text().split("\n")) if begins.match(line))


def comment_of(path, at):
    """The comment above the definition that begins in this line, or beside it."""
    lines, mark, above = path.read_text().split("\n"), {".antt": "--", ".rt": "///"}[path.suffix], []
    for line in (line.strip() for line in reversed(lines[:at])):
        if not line.startswith((mark, "#[")):
            break
        above += [line.removeprefix(mark).strip()] * line.startswith(mark)
    return " ".join(reversed(above)) or lines[at].partition(f" {mark} ")[2]


# ---- clauses

FN = re.compile(r"^(?P<space>\s*)(?P<pub>pub )?(?:const )?fn (?P<name>\w+)")
BLOCK = re.compile(r"^(?:pub )?(?:impl|trait)\b(?:<(?:[^<>]|->|<[^<>]*>)*>)?\s*(?P<text>.*?)\s*\{?$")
CLAUSE = re.compile(r"^\s*ensures\*?\s*(?P<name>\w+)?\s*\{(?P<text>.*)$")
MOD = re.compile(r"^(?P<pub>pub )?mod (?P<name>\w+);", re.M)
PUB_USE = re.compile(r"^pub use (?:crate::|self::)?(?P<place>[\w:]+?)(?:::\{(?P<names>[^}]*)\})?;", re.M)
TYPE = re.compile(r"^pub (?:struct|enum|trait) (?P<name>\w+)", re.M)


def open_files(path):
    """The files of the modules that another crate can name, from this file on."""
    yield path
    folder = path.parent if path.name in ("lib.rt", "main.rt") else path.with_suffix("")
    for found in MOD.finditer(path.read_text()):
        below = folder / f"{found['name']}.rt"
        if found["pub"] and below.exists():
            yield from open_files(below)


@lru_cache(None)
def seen_from_outside(crate):
    """What other crates can name of a crate: the files whose public items they can, and the items that a `pub use`
    of these files brings out of private ones. Of a program it is what its modules can name of each other."""
    source = ROOT / "crates" / crate / "src"
    files = set(open_files(source / "lib.rt") if (source / "lib.rt").exists() else source.rglob("*.rt"))
    names = set()
    for path in files:
        text = path.read_text()
        names.update(found["name"] for found in TYPE.finditer(text))
        for found in PUB_USE.finditer(text):
            words = re.split(r",\s*", found["names"].strip()) if found["names"] else [found["place"].rsplit("::", 1)[-1]]
            names.update(word.split(" as ")[0].split("::")[-1] for word in words if word)
    return files, names


def type_in(text):
    """The type that an `impl` is for, or the name of a trait."""
    text = text.split(" for ")[-1]
    return re.match(r"\w+", text.strip())[0] if re.match(r"\w+", text.strip()) else ""


def with_whole_clauses(lines):
    """The lines, where those of one clause are one line."""
    begun = ""
    for line in lines:
        begun = f"{begun} {line.strip()}" if begun else line
        if not (CLAUSE.match(begun) and begun.count("{") > begun.count("}")):
            yield begun
            begun = ""


@lru_cache(None)
def clauses_of(crate, path):
    """Each function of a Rust file that other crates can call: its name with its type's, and its clauses' texts by
    their names."""
    files, names = seen_from_outside(crate)
    owner, public, function, clauses, found = "", False, None, {}, []
    for line in with_whole_clauses(path.read_text().split("\n")):
        if re.match(r"^(pub )?(impl|trait)\b", line):
            public, owner = bool(re.match(r"^pub trait", line)), type_in(BLOCK.match(line)["text"])
        elif line.startswith("#[cfg(test)]"):
            break
        elif line.startswith("}"):
            owner, public = "", False
        head = FN.match(line)
        if head:
            function = None
            is_seen = owner in names if owner else path in files or head["name"] in names
            if (head["pub"] or public) and is_seen:
                function, clauses = f"{owner}::{head['name']}" if owner else head["name"], {}
                found.append((function, clauses))
        elif function and CLAUSE.match(line):
            clause = CLAUSE.match(line)
            name = clause["name"] or "ensures"
            clauses[name] = clauses.get(name, "") + clause["text"]
        elif function and re.match(rf"^\s*\{{", line):
            function = None
    return [(name, clauses) for name, clauses in found if clauses]
