"""What a crate's files cite of the crates below, of itself or by what that cites.

A declaration of specs/ is cited by its name with its crate, as an import brings it, and by its name alone within that crate's
specs/. A name that occurs as a word counts as cited, so rather too much is taken than too little: a function's head by its
name, and all that a source says outside of functions by a name that is declared there. What the compiler uses without a name,
as `drop` or `from`, stands in an impl of a trait: such functions always count, and so do operators.
"""

import re
from functools import cache
from typing import NamedTuple

from . import functions
from .declarations import imported, parsed, tokens

WORD = re.compile(r"\w+")
PATH = re.compile(r"\bRattle\.(\w+\.specs(?:\.\w+)+)")
DECLARED = re.compile(r"^\s*(?:pub(?:\([^)]*\))?\s+)?(?:const\s+)?(?:unsafe\s+)?(?:struct|enum|union|trait|type|const|static|fn|macro_rules!)\s+(\w+)", re.M)
IMPORT = re.compile(r"^[ \t]*(?:pub(?:\([^)]*\))?\s+)?use ([^;{]+)(?:\{([^}]*)\})?[^;]*;", re.M)
GHOST = re.compile(r"^[ \t]*(?:pub(?:\([^)]*\))?\s+)?ghost use ([\w.+]+?)(?:\.\{([^}]*)\})?(?: as (\w+))?;", re.M)
INLINE = re.compile(r"\b(\w+)::(specs|proofs)(?:::[A-Z]\w*)+(?=::)")
NAMED = re.compile(r"\b(\w+)::specs::(\w+)")
VARIANT = re.compile(r"^[ \t]+([A-Z]\w*)", re.M)
MODULE = re.compile(r"^[ \t]*(?:pub(?:\([^)]*\))?\s+)?mod \w+;", re.M)


class Item(NamedTuple):
    """A piece of what a crate states, the words that cite it, and those that it cites; without words it is always cited."""

    names: frozenset
    text: str
    cites: frozenset


@cache
def words(text):
    """The words of a text, and the names of specs/ that it has whole."""
    paths = (path.split(".") for path in PATH.findall(text))
    return frozenset((*WORD.findall(text), *(f"{path[0]}.specs.{path[-1]}" for path in paths)))


def plain(code):
    """A source's text on one line, without the files of the definitions and lemmas that it names in attributes."""
    return " ".join(INLINE.sub(r"\1::\2", code).split())


def inline(crate, said):
    """The names of specs/ that a crate's source has in attributes."""
    return {f"{crate if of == 'crate' else of}.specs.{name}" for of, name in NAMED.findall(said)}


def imports(code):
    """The names that a source imports from sources, each with the words that stand for it."""
    for path, listed in IMPORT.findall(code):
        for name in listed.split(",") if listed else [""]:
            yield words(name or path.rpartition("::")[2].rpartition(".")[2]), f"{path}{name.strip()}"


def ghosts(code):
    """The names that a source imports from specs/ and proofs/."""
    return [one for found in GHOST.findall(code) for one in imported(*found)]


def items(crate, name, text):
    """The pieces of a crate's source: its functions' heads, and the rest."""
    code = functions.bare(text)
    found, rest, at = [], [], 0
    lines = [0, *(end.end() for end in re.finditer("\n", text)), len(text)]
    for one in functions.functions(text):
        begins = max(at, lines[one.first - 1])
        rest.append(code[at:begins])
        found.append((() if " for " in one.owner else (one.name,), f"{one.owner} {code[begins:one.begins]}"))
        at = one.ends
    rest = "".join((*rest, code[at:]))
    known, stated = list(imports(rest)), ghosts(rest)
    rest = MODULE.sub("", IMPORT.sub("", GHOST.sub("", rest)))
    if declared := DECLARED.findall(rest):
        found.append((declared, rest))
    variants = [f"{crate}.specs.{word}" for word in VARIANT.findall(rest)]
    for names, piece in found:
        used, named = words(piece), [one for one in stated if one.serves(tokens(piece))]
        brought = sorted([*(path for imported, path in known if not imported or imported & used), *(one.said() for one in named)])
        said = f"{crate} {name} {plain(piece)} {' '.join(brought)}"
        cites = (*names, *(f"{crate}.specs.{word}" for word in names), *(variants if names is declared else ()))
        yield Item(frozenset(cites), said, words(said).union(inline(crate, said), *(one.cites() for one in named)))


def definitions(crate, name, text):
    """The pieces of a crate's file of specs/: its declarations, and what it passes on of other files."""
    place, file = f"{crate}.specs", parsed(text)
    modules = name.split("/")
    above = [f"{place}/{'.'.join(modules[:end])}" for end in range(1, len(modules) + 1)]
    for one in file.passed_on:
        yield Item(frozenset((f"{place}.{one.called}", *above)), "" if one.is_within(place) else f"{place} {one.said()}", one.cites())
    for names, said in file.declarations:
        known = tokens(said)
        named = [one for one in file.imports if not one.is_of(place) and one.serves(known)]
        brought = " ".join(sorted({one.said() for one in named}))
        own = frozenset() if any("◌" in word for word in names) else frozenset((*(f"{place}.{word}" for word in names), *above))
        yield Item(own, f"{place} {said} {brought}", words(said).union((f"{place}.{word}" for word in known), *(one.cites() for one in named)))


@cache
def pieces(crate, name, text):
    """The pieces of a file of a crate's specs/ or src/."""
    if name.endswith(".rt"):
        return tuple(items(crate, name, text))
    return tuple(definitions(crate, name.removesuffix(".antt"), text))


def stated(crate, files):
    """The pieces of what a crate states, comments aside."""
    for name, path in (*files(crate / "specs"), *files(crate / "src", ".rt")):
        yield from pieces(crate.name, name, path.read_text())


def cited(known, pieces):
    """The texts of those of these pieces that one of these words cites, or that a cited one does, in the order of the alphabet."""
    known, new, left, found = set(), set(known), list(pieces), []
    while new:
        known |= new
        taken = [item for item in left if not item.names or not known.isdisjoint(item.names)]
        left = [item for item in left if item.names and known.isdisjoint(item.names)]
        found += taken
        new = set().union(*(item.cites for item in taken)) - known
    return sorted({item.text for item in found} - {""})
