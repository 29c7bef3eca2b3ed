"""The checksum of all that the checks of a crate's mutants read.

Comments aside, these are of the crate itself its sources and its line of crates.txt, of the crates below what its sources
cite of their specs/ and of the text of their src/ outside of functions' bodies (`cited`). A body below is no part of a check
here, which cites its contract, and neither are the lemmas of proofs/ below: they are proved, so no lemma makes a wrong
body right. In which file of specs/ or proofs/ a declaration stands doesn't count, nor the order there, nor through which
file a name is imported: so an import that turns to a homonym in another file of the same crate's part isn't seen.
"""

import hashlib
import shutil
import subprocess

from crates import SOURCES, TOP

from .cited import GHOST, cited, ghosts, inline, plain, stated, words
from .declarations import parsed
from .functions import bare

DIGITS = 16


def kit():
    """The number of the kit's logic, as `rt version` prints it; None where there is no kit."""
    if not shutil.which("rt"):
        return None
    words = subprocess.run(["rt", "version"], stdin=subprocess.DEVNULL, capture_output=True, text=True, check=False).stdout.split()
    return words[words.index("logic") + 1] if "logic" in words[:-1] else None


def digest(parts):
    """One sum of many texts."""
    whole = hashlib.sha256()
    for part in parts:
        data = part if isinstance(part, bytes) else part.encode()
        whole.update(b"%d:" % len(data) + data)
    return whole.hexdigest()[:DIGITS]


def files(folder, suffix=""):
    """The files below a folder, sorted, each by its name there."""
    return [(path.relative_to(folder).as_posix(), path) for path in sorted(folder.rglob(f"*{suffix}")) if path.is_file()]


def of_source(crate, name, text):
    """What a source says, with the names that it imports of specs/ and proofs/ after all, and the words by which it cites."""
    code = bare(text)
    found = ghosts(code)
    said = plain(GHOST.sub("", code))
    return f"{name} {said} {' '.join(sorted({one.said() for one in found}))}", words(said).union(inline(crate, said), *(one.cites() for one in found))


def of_definitions(place, text):
    """The declarations of a file of specs/ or proofs/, its imports, and the words by which it cites."""
    file = parsed(text)
    found = file.named(place)
    said = [f"{place} {one.text}" for one in file.declarations]
    return said, {f"{place} use {one.said()}" for one in found}, words("\n".join(said)).union(*(one.cites() for one in found))


def read_by(name, crates, logic, top=TOP):
    """The sum of all that the checks of a crate read, but its mutants."""
    sources, declared, imports, known = [], [], set(), set()
    for part in SOURCES:
        for at, path in files(top / "crates" / name / part):
            if path.suffix == ".antt":
                found, brought, cites = of_definitions(f"{name}.{part}", path.read_text())
                declared += found
                imports |= brought
            else:
                found, cites = of_source(name, f"{part}/{at}", path.read_text())
                sources.append(found)
            known |= cites
    line = [line for line in (top / "crates.txt").read_text().splitlines() if line.partition(":")[0].split()[:1] == [name]]
    below = [item for low in sorted(crates.below(name)) for item in stated(top / "crates" / low, files)]
    return digest([logic, *line, *sources, *sorted(declared), *sorted(imports), *cited(known, below)])


def of_edit(edit):
    """The sum of a mutant's own text."""
    return digest([edit.text])
