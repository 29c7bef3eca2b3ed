"""The tests of litmus/, with their witnesses and what a source says of them."""

import re

from page_parts import ROOT
from page_parts.listing import question
from witnesses import witnesses

SHELF = ROOT / "litmus"


def tokens(schedule):
    """The tokens of a schedule's text, without its first line."""
    return schedule.partition("\n")[2].strip()


def shelf():
    """Each test: family, name, title, text, question, witnesses, and which outcomes a source excludes."""
    page = (SHELF / "README.md").read_text()
    # the last column of the shelf's tables, and what its marks stand for
    excluded = dict(re.findall(r"^\| \[[^\]]*\]\(([^)]*)\) \|.*\| *([^|]*?) *\|$", page, re.MULTILINE))
    sources = dict(re.findall(r"^\| \[([^\]]+)\] \| (.*?) *\|$", page, re.MULTILINE))
    tests = []
    # the plain test of a family comes before its variants
    for path in sorted(SHELF.glob("*/*.litmus"), key=lambda path: (path.parent.name, path.stem)):
        text = path.read_text()
        tests.append({"family": path.parent.name, "name": path.stem, "title": text.split()[1], "text": text,
                      "question": question(text), "witnesses": [(outcome, tokens(schedule)) for outcome, schedule in sorted(witnesses(path).items())],
                      "excluded": excluded.get(f"{path.parent.name}/{path.name}", "")})
    return {"tests": tests, "sources": sources}
