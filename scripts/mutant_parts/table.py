"""scripts/mutants.tsv: for each crate which of its mutants were refused, at which sources, and what that cost."""

from typing import NamedTuple

from crates import TOP

from . import sums

FILE = TOP / "scripts/mutants.tsv"
HEAD = ("crate", "reads", "seconds", "refused")


class Row(NamedTuple):
    """The sum of all that the checks read, the processor seconds of the trials, and by the name of each mutant that was refused the sum of its text."""

    reads: str
    seconds: int
    refused: dict

    def line(self, crate):
        return "\t".join((crate, self.reads, str(self.seconds), " ".join(f"{name}:{text}" for name, text in sorted(self.refused.items()))))


def read(file=FILE):
    """The rows, by the name of their crate."""
    lines = [line.split("\t") for line in file.read_text().splitlines()[1:]] if file.is_file() else []
    return {crate: Row(reads, int(seconds), dict(word.split(":") for word in refused.split())) for crate, reads, seconds, refused in lines}


def put(crate, row, file=FILE):
    """Puts a crate's row into the table; those of other crates may have come meanwhile, and stay."""
    lines = ["\t".join(HEAD), *(it.line(name) for name, it in sorted({**read(file), crate: row}.items()))]
    new = file.with_suffix(".new")
    new.write_text("".join(line + "\n" for line in lines))
    new.replace(file)


def left(edits, reads, row):
    """Those of a crate's mutants that the row doesn't have, where `reads` is the sum of the sources as they are."""
    if row is None or row.reads != reads:
        return edits
    return [edit for edit in edits if row.refused.get(edit.name) != sums.of_edit(edit)]


def wrong(there, file=FILE):
    """A line for each row that doesn't fit: `there` has the names of each crate's mutants. A row whose sums are others
    than the files' is stale, which is no fault: the crate's mutants are tried again."""
    if not file.is_file():
        return
    for number, line in enumerate(file.read_text().splitlines(), 1):
        words = line.split("\t")
        if number == 1 or len(words) != len(HEAD):
            if tuple(words) != HEAD or number != 1:
                yield f"{file.name}:{number}: a row has the columns {', '.join(HEAD)}, parted by tabs"
        elif words[0] not in there:
            yield f"{file.name}:{number}: there is no crate {words[0]} with mutants: remove the row"
        else:
            lost = [name for name, _, _ in (word.partition(":") for word in words[3].split()) if name not in there[words[0]]]
            yield from (f"{file.name}:{number}: {words[0]} has no mutant {name}: take it out of the row" for name in lost)
