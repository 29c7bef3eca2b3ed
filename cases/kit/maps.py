"""The maps of tools/, tests/ and scripts/: each README.md there names every entry of its folder in a row, and no other.
The decisions: each entry is short."""

import re

from .links import ROOT

FOLDERS = ("tools", "tests", "scripts")
DECISIONS, MOST_WORDS = ROOT / "docs/DECISIONS.md", 100
HIDDEN = ("README.md", "__pycache__", "out")


def named(page):
    """What stands as code in the rows of a page's tables: of `outside/rings` the folder is meant."""
    rows = (line for line in page.read_text().splitlines() if line.startswith("| `"))
    first = (re.findall(r"`([^`/\s]+)[^`\s]*`", line.split(" | ")[0]) for line in rows)
    return {word for words in first for word in words}


def long_decisions():
    """A line for each entry of docs/DECISIONS.md that has too many words."""
    for entry in re.split(r"^### ", DECISIONS.read_text(), flags=re.M)[1:]:
        title, _, rest = re.split(r"^## ", entry, flags=re.M)[0].partition("\n")
        if len(rest.split()) > MOST_WORDS:
            yield f"docs/DECISIONS.md: {title}: {len(rest.split())} words, of {MOST_WORDS} at most"


def wrong():
    """A line for each entry that a map doesn't have, for each row whose entry isn't there, and for each long decision."""
    yield from long_decisions()
    for name in FOLDERS:
        page = ROOT / name / "README.md"
        there = {path.name for path in page.parent.iterdir()} - set(HIDDEN)
        rows = named(page)
        text = "\n".join(line for line in page.read_text().splitlines() if line.startswith("| "))
        yield from (f"{name}/README.md: no row names {entry}" for entry in sorted(there) if f"`{entry}`" not in text)
        yield from (f"{name}/README.md: {entry}: there is no such file" for entry in sorted(rows - there))
