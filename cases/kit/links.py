"""The files and links that the pages name: each has to be there."""

import re
from pathlib import Path

ROOT = Path(__file__).resolve().parent.parent.parent
FOLDERS = ("docs", "examples", "litmus", "crates", "tools", "tests", "scripts", "bench", "cases")
PARTS = ("src", "specs", "proofs", "must-fail", "mutants.edits")
LINK = re.compile(r"\[[^\]\n]*\]\((?P<target>[^)\s]+)\)")
PATH = re.compile(r"(?<![\w./:<*~-])(?:[\w.+-]+/)+[\w.+-]*[\w+]")
# A word that stands for a name, and what only a build makes.
OPEN = re.compile(r"NAME|OUTCOME|(^|/)out(/|$)")


def pages():
    """Every page: those at the top, in docs/, and each README.md beside what it is about."""
    found = [path for folder in ("", "docs/", "crates/", "bench/") for path in ROOT.glob(f"{folder}*.md")]
    for folder in FOLDERS:
        found += [path for path in (ROOT / folder).rglob("README.md") if "out" not in path.parts]
    return sorted(set(found))


def anchors_of(path):
    """The anchors of a page's headings, as GitHub names them."""
    text = re.sub(r"^```.*?^```", "", path.read_text(), flags=re.M | re.S)
    headings = re.findall(r"^#+ (.*)$", text, re.M)
    return {re.sub(r"[^\w\- ]", "", heading.lower()).replace(" ", "-") for heading in headings}


def missing_link(page, target):
    """What is missing of a link, or None."""
    if "://" in target:
        return None
    file, _, anchor = target.partition("#")
    path = (page.parent / file).resolve() if file else page
    if not path.exists():
        return "no such file"
    if anchor and path.suffix == ".md" and anchor not in anchors_of(path):
        return "no such heading"
    return None


def is_there(word):
    """Whether a file that a text names is there; so is what isn't the name of one."""
    first, _, rest = word.partition("/")
    if OPEN.search(word):
        return True
    if first in FOLDERS:
        return (ROOT / word).exists()
    if (ROOT / "crates" / first).is_dir() and rest.split("/")[0] in PARTS:
        return any((ROOT / "crates" / (word + end)).exists() for end in ("", ".antt"))
    if first in PARTS:
        return any(True for _ in (ROOT / "crates").glob(f"*/{word}"))
    return True


def named():
    """The names of tests and of cases that a page may name, as `test NAME` and `case NAME`."""
    tests = [re.findall(r"^ *fn (\w+)\(", path.read_text(), re.M) for path in ROOT.glob("crates/tests_*/src/*.rt")]
    cases = [re.findall(r"^== (\S+)$", path.read_text(), re.M) for path in ROOT.glob("cases/*.cases")]
    return {"test": set(sum(tests, [])), "case": set(sum(cases, []))}


def wrong():
    """A line for each link, file, test and case that isn't there, and for each page that README.md doesn't link."""
    names = named()
    for page in pages():
        text, name = page.read_text(), page.relative_to(ROOT)
        for match in LINK.finditer(text):
            why = missing_link(page, match["target"])
            if why:
                yield f"{name}: {match['target']}: {why}"
        bare = LINK.sub("", re.sub(r"https?://\S+", "", text))
        for word in sorted(set(PATH.findall(bare))):
            if not is_there(word):
                yield f"{name}: {word}: no such file"
        for kind, word in re.findall(r"`(test|case) ([\w./-]+)`", text):
            if word not in names[kind]:
                yield f"{name}: {word}: no such {kind}"
    front = ROOT / "README.md"
    linked = {(front.parent / match["target"].split("#")[0]).resolve() for match in LINK.finditer(front.read_text())}
    for page in pages():
        if page != front and page not in linked:
            yield f"README.md: has no link to {page.relative_to(ROOT)}"
