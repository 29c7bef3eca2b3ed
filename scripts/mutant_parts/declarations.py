"""A definition's or a lemma's file as its imports and its declarations, so that neither the file, the order in it nor its lines count.

A declaration begins at a line without an indent that says `name :`, has a word like `pub` before the name, or is the first
clause of another name; it goes on with the clauses and the indented lines up to the next one.
"""

import re
from functools import cache
from typing import NamedTuple

BEGINS = ("pub", "abbrev", "unfoldable", "opaque", "record", "data", "module", "infix", "infixl", "infixr")
NAMED = re.compile(rf"^\s*(?:(?:{'|'.join(BEGINS)}|\d+)\s+)*(?P<name>[^\s:(){{}}]+)\s*(?P<typed>.*)")
REMARK = re.compile(r"^[ \t]*--.*\n", re.M)
USE = re.compile(r"^(?:(?:unfoldable )?pub )?use (?P<path>[\w.+]+?)(?:\.\{(?P<names>[^}]*)\})?(?: as (?P<alias>\w+))?$")
INLINE = re.compile(r"\bRattle\.(\w+)\.(specs|proofs)(?:\.\w+)*\.(?=[^\W\d])")
TOKEN = re.compile(r"\[\]|[^\s(){}\[\];,.]+")
BEFORE_POINT = re.compile(r"[^\s(){}\[\];,.]+\.(?=[^\W\d])")
WORD_OF = {"◌>>=◌": "do"}  # what a text says in place of an operator
MADE = ("Goals", "Given")  # the modules that the kit makes of a function's proof


class Import(NamedTuple):
    """A name that a file imports, or a whole module, and what it is called there. `place` is its crate and specs or proofs."""

    place: str
    modules: tuple
    name: str
    alias: str

    @property
    def called(self):
        return self.alias or self.name or self.modules[-1]

    @property
    def path(self):
        return ".".join((self.place, *self.modules))

    def is_whole(self):
        """Whether a module is imported, or a name of one that the kit makes, whose path says which."""
        return not self.name or bool(set(MADE) & set(self.modules))

    def is_of(self, place):
        """Whether what imports it could stand in the same file, so that the import would not be there."""
        return self.place == place and not self.is_whole() and not self.alias and self.modules[:1] != ("declared",)

    def is_within(self, place):
        """Whether a file of a place that passes it on only lists it."""
        return self.place == place and not self.alias

    def said(self):
        """The import without the file that it names; a homonym in another file of that crate's part is taken for the same."""
        path = self.path if self.is_whole() else self.place
        return f"{path}{'.' * bool(self.name)}{self.name}{' as ' * bool(self.alias)}{self.alias}"

    def cites(self):
        """The words by which a piece of what is stated is cited. What a source declares is found by each word of its path."""
        if self.modules[:1] == ("declared",):
            return frozenset(f"{self.place}.{word}" for word in (*self.modules[1:], self.name) if word)
        if self.name:
            return frozenset((f"{self.place}.{self.name}",))
        return frozenset((f"{self.place}/{'.'.join(self.modules)}", f"{self.place}.{''.join(self.modules[-1:])}"))

    def serves(self, tokens):
        """Whether a text of these tokens can name it: an operator by all its parts, a module before a point."""
        if not self.name:
            return f"{self.called}." in tokens
        if self.called in tokens or WORD_OF.get(self.called) in tokens:
            return True
        return "◌" in self.called and all(part in tokens for part in self.called.split("◌") if part)


class Declaration(NamedTuple):
    """The names that a declaration brings, and its text on one line."""

    names: frozenset
    text: str


class Parsed(NamedTuple):
    """A file's imports, those of them that others import through it, and its declarations in their order."""

    imports: tuple
    passed_on: tuple
    declarations: tuple

    def named(self, place):
        """The imports that its declarations name or that it passes on, without those that only say where its own place has a name."""
        known = tokens("\n".join(one.text for one in self.declarations))
        return [one for one in self.imports if (not one.is_within(place) if one in self.passed_on else one.serves(known) and not one.is_of(place))]


def imported(path, names="", alias=""):
    """The imports of a line, given as its path, what it lists and what it calls a module."""
    parts = path.removeprefix("Rattle.").split(".")
    for word in names.split(",") if names else [""]:
        name, _, other = word.strip().partition(" as ")
        if name or not names:
            yield Import(".".join(parts[:2]), tuple(parts[2:]), name, other or alias or "")


def tokens(text):
    """The names in a text, and those before a point together with it."""
    return frozenset((*TOKEN.findall(text), *BEFORE_POINT.findall(text)))


def names_of(lines):
    """The names that a declaration's lines bring: its own, and those of its fields, cases and inner declarations."""
    own = NAMED.match(lines[0])
    inner = (found["name"] for line in lines if (found := NAMED.match(line)) and ":" in found["typed"])
    return frozenset((own["name"], *inner)) if own else frozenset()


def begins(line, name):
    """Whether a line without an indent begins a declaration, where the one before it has this name."""
    found = NAMED.match(line)
    if not found or line.startswith("unfolding "):
        return False
    return line.split()[0] in BEGINS or found["typed"].startswith(":") or (found["name"] != name and "◌" not in name)


@cache
def parsed(text):
    """What a file says. Lines `mod` say which files there are, and are left out."""
    imports, passed_on, pieces, name = [], [], [], ""
    for line in REMARK.sub("", text).split("\n"):
        if used := USE.match(line):
            found = list(imported(*used.groups()))
            imports += found
            passed_on += found * (not line.startswith("use"))
        elif re.match(r"(?:pub )?mod \w+$", line) or not line.strip():
            continue
        elif pieces and (line[0] in " \t)]}" or not begins(line, name)):
            pieces[-1].append(line)
        else:
            pieces.append([line])
            name = NAMED.match(line)["name"] if NAMED.match(line) else ""
    texts = (INLINE.sub(r"Rattle.\1.\2.", " ".join(" ".join(piece).split())) for piece in pieces)
    return Parsed(tuple(imports), tuple(passed_on), tuple(Declaration(names_of(piece), line) for piece, line in zip(pieces, texts)))
