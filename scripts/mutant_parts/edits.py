"""Mutants: pairs of texts, each of which stands once in a file of the crate and is replaced.

A crate's mutants stand in its file mutants.edits, one after the other. A line `== NAME` begins each, and its lines `file:`,
`old:` and `new:` follow as in the files must-fail/NAME.edit, each of which has one mutant.
"""

from sections import sections

# what `rt ci` tries one by one, and what scripts/mutants tries several at a time
ONE_BY_ONE, TOGETHER = "must-fail", "mutants.edits"
PARTS = ("src/", "specs/", "proofs/")


class Unfit(Exception):
    """Why a mutant doesn't apply."""


class Edit:
    """A mutant of a crate, in whose folder its files stand."""

    def __init__(self, crate, name, text):
        self.crate, self.name, self.text = crate, name, text
        self.pairs = list(pairs_of(text))
        if not self.pairs:
            raise Unfit("it has no lines 'old:' and 'new:'")

    def within(self, crate):
        """The same mutant of a copy of its crate."""
        self.crate = crate
        return self

    def read(self, path):
        """The text of a file of the crate as it stands."""
        if not path.startswith(PARTS) or not (self.crate / path).is_file():
            raise Unfit(f"there is no file {path} in the crate's src, specs or proofs")
        return (self.crate / path).read_text()

    def applied(self, texts=None):
        """The files that differ with this edit, each with its text, where `texts` has what other edits made of them."""
        before = dict(texts or {})
        after = dict(before)
        for path, old, new in self.pairs:
            text = after[path] if path in after else self.read(path)
            before.setdefault(path, text)
            if (found := text.count(old)) != 1:
                raise Unfit(f"{path} has {found} times: {old}")
            after[path] = text.replace(old, new)
        if after == before:
            raise Unfit("it changes nothing")
        return after


def pairs_of(text):
    """The file, the old and the new text of each change, in their order."""
    path = old = None
    for line in text.split("\n"):
        if line.startswith("file: "):
            path = line.removeprefix("file: ").strip()
        elif line.startswith("old: "):
            old = line.removeprefix("old: ")
        elif line.startswith("new:"):
            if path is None or old is None:
                raise Unfit("a line 'new:' has no 'file:' or 'old:' before it")
            yield path, old, line.removeprefix("new:").removeprefix(" ")
            old = None
        elif line:
            raise Unfit(f"a line begins with none of 'file:', 'old:' and 'new:': {line}")


def place_of(kind, name):
    """Where a mutant of a kind stands in its crate's folder, as messages say it."""
    return f"{kind}/{name}.edit" if kind == ONE_BY_ONE else f"{kind}: {name}"


def texts_of(crate, kind):
    """The names and the texts of a crate's mutants of a kind, sorted."""
    if kind == ONE_BY_ONE:
        return sorted((file.stem, file.read_text()) for file in (crate / kind).glob("*.edit"))
    file = crate / kind
    return sorted(sections(file.read_text())) if file.is_file() else []


def edits_of(crate, kind=TOGETHER):
    """A crate's mutants of a kind, by name."""
    found, place = {}, kind
    try:
        for name, text in texts_of(crate, kind):
            place = place_of(kind, name)
            if name in found:
                raise Unfit("two mutants have this name")
            found[name] = Edit(crate, name, text)
    except (Unfit, ValueError) as why:
        raise Unfit(f"{crate.name}/{place}: {why}") from None
    return list(found.values())
