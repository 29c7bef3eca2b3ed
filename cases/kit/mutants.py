"""The mutants of the crates: each must apply to its files as they stand, or nothing is tried, those of must-fail/ edit src/
alone, and those that crates/mutants.md and scripts/mutants.tsv name must be there."""

import re
import sys

from .links import ROOT

sys.path.insert(0, str(ROOT / "scripts"))

from mutant_parts import table  # noqa: E402
from mutant_parts.edits import ONE_BY_ONE, TOGETHER, Unfit, edits_of, place_of  # noqa: E402

PAGE = "crates/mutants.md"


def edits(kind):
    """The mutants of a kind by their crates, and a line for each crate of which they can't be read."""
    found, wrong = {}, []
    for crate in sorted((ROOT / "crates").iterdir()):
        try:
            found[crate.name] = edits_of(crate, kind)
        except Unfit as why:
            wrong.append(f"crates/{why}")
    return found, wrong


def unfit(edit, kind):
    """Why a mutant shows nothing, or None."""
    try:
        edit.applied()
    except Unfit as why:
        return why
    if kind == ONE_BY_ONE and any(not path.startswith("src/") for path, _, _ in edit.pairs):
        return f"it edits more than src/, of which `rt ci` learns nothing: move it to {TOGETHER}"
    return None


def count():
    """How many mutants there are."""
    return sum(len(found) for kind in (ONE_BY_ONE, TOGETHER) for found in edits(kind)[0].values())


def wrong():
    """A line for each mutant that can't be read, doesn't apply or isn't there though a page or the table of refused ones names it."""
    for kind in (ONE_BY_ONE, TOGETHER):
        found, unread = edits(kind)
        yield from unread
        yield from (f"crates/{crate}/{place_of(kind, edit.name)}: {why}"
                    for crate, its in found.items() for edit in its if (why := unfit(edit, kind)))
    there = {crate: [edit.name for edit in its] for crate, its in found.items() if its}
    for crate, name in re.findall(r"`([a-z]\w*)/(\w+)`", (ROOT / PAGE).read_text()):
        if name not in there.get(crate, ()):
            yield f"{PAGE}: crates/{crate}/{TOGETHER} has no mutant {name}"
    yield from table.wrong(there)
