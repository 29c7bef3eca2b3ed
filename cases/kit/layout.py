"""How the sources are laid out: the crates' as `rt fmt` writes them, no line too wide to read side by side, and not more of them
than was said."""

import re
import shutil
import subprocess
from collections import Counter
from pathlib import Path

from .links import ROOT

PARTS = ("src", "specs", "proofs")
WIDEST = 160
FILES = 3_650  # that git tracks, the drivers of examples/real among them; lower it when some go
NAMED_BY_THE_KIT = re.compile(r"crates/\w+/proofs/.+/\w+\.antt")
# for each crate how many lines its specs/ and proofs/ had in 1.2.0, or may have since, and why
SIZES = ROOT / "scripts/sizes.tsv"
MORE = 300  # lines, of one crate, that need no word
ADVICE = {".antt": "scripts/fold-lines breaks it", ".rt": "break its clause, its imports or its text"}
# An attribute of the prover: `rt fmt` writes each on one line.
ATTRIBUTE = "#[tactic("


def sources():
    """The sources of the crates, by their names from the root."""
    found = (path for part in PARTS for path in (ROOT / "crates").glob(f"*/{part}/**/*") if path.suffix in ADVICE)
    yield from (path.relative_to(ROOT) for path in sorted(found))


def wide():
    """A line for each source line that is too wide."""
    for name in sources():
        for number, line in enumerate((ROOT / name).read_text().split("\n"), 1):
            if len(line) > WIDEST and not line.lstrip().startswith(ATTRIBUTE):
                yield f"{name}:{number}: {len(line)} columns, of {WIDEST} at most: {ADVICE[name.suffix]}"


def unformatted():
    """A line for each source that `rt fmt` would change, and none where the kit isn't there: `rt ci` refuses a crate
    for it, but only once it has proved those below."""
    rt = shutil.which("rt")
    if rt:
        rattle = Path(rt).resolve().parent / "rattle"
        asked = subprocess.run([rattle, "fmt", "--check", *sources()], capture_output=True, text=True, cwd=ROOT)
        if asked.returncode:
            yield from (f"{line}: `rt fmt` in its crate mends it" for line in (asked.stdout + asked.stderr).splitlines())


def many():
    """A line if more files are tracked than may be, and none outside of a checkout."""
    listed = subprocess.run(["git", "ls-files"], capture_output=True, text=True, cwd=ROOT, check=False) if shutil.which("git") else None
    names = listed.stdout.splitlines() if listed else []
    if len(names) > FILES:
        asked = sum(bool(NAMED_BY_THE_KIT.fullmatch(name)) for name in names)
        yield f"git tracks {len(names)} files, {asked} of them of a function's proof, as the kit names it, and may track {FILES}"


def grown():
    """A line for each crate whose specs and proofs grew by more than may grow unsaid, and for each row that is no crate's."""
    said = {crate: int(lines) for crate, lines, *_ in (row.split("\t") for row in SIZES.read_text().splitlines()[1:])}
    now = Counter()
    for name in sources():
        if name.suffix == ".antt":
            now[name.parts[1]] += (ROOT / name).read_text().count("\n")
    for crate in sorted(now.keys() | said.keys()):
        if not now[crate]:
            yield f"scripts/{SIZES.name}: {crate} has no specs or proofs: remove its row"
        elif now[crate] > said.get(crate, 0) + MORE:
            yield f"crates/{crate}: {now[crate]} lines of specs and proofs, of {said.get(crate, 0)} in scripts/{SIZES.name}: write that there, and why"


def wrong():
    """A line for each fault of the layout."""
    yield from wide()
    yield from many()
    yield from grown()
    yield from unformatted()
