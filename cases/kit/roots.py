"""What the first comment of each library's root ends with: which crates call it."""

import re
import sys

from .links import ROOT

sys.path.insert(0, str(ROOT / "scripts"))

from crates import TOP, Crates  # noqa: E402

NAMED = 6  # at most this number of callers is named; of more a lower and a higher one, so that a further crate changes no line below it
BEGINS = "//! Called by "


def code(name):
    """A crate's sources without comments."""
    lines = (line for path in sorted((TOP / "crates" / name / "src").rglob("*.rt")) for line in path.read_text().split("\n"))
    return "\n".join(line for line in lines if not line.lstrip().startswith("//"))


def callers(crates):
    """For each crate the crates whose sources name it, lowest first, tests aside."""
    codes = {name: code(name) for name in crates.names if not name.startswith("tests_")}
    return {name: [user for user in codes if name in crates.uses[user] and re.search(rf"\b{name}::", codes[user])] for name in codes}


def citing(name, crates):
    """The crates that cite a library of definitions and laws, which none calls."""
    return [user for user in crates.names if name in crates.uses[user] and not user.startswith("tests_")]


def said(name, users, crates):
    """The line: its callers, or if none calls it the crates that cite it."""
    if users:
        return f"{BEGINS}{listed(users)}."
    cited = citing(name, crates)
    return f"{BEGINS}none, and cited by {listed(cited)}." if cited else f"{BEGINS}none: its laws are what it is for."


def listed(users):
    names = [f"`{user}`" for user in users]
    if len(names) > NAMED:
        return f"more than {NAMED} crates, from {names[0]} to {names[-1]}"
    return " and ".join([", ".join(names[:-1]), names[-1]] if len(names) > 1 else names)


def names_two(line, users):
    """Whether a line names a lower and a higher one of more callers than are named."""
    named = re.fullmatch(rf"{BEGINS}(?:none, and cited by )?more than {NAMED} crates, from `(\w+)` to `(\w+)`\.", line)
    return len(users) > NAMED and named is not None and set(named.groups()) <= set(users) and users.index(named[1]) < users.index(named[2])


def wanted():
    """Each library's root, its callers, and the line that it should have."""
    crates = Crates.read()
    for name, users in callers(crates).items():
        root = TOP / "crates" / name / "src/lib.rt"
        if root.is_file():
            yield root, users or citing(name, crates), said(name, users, crates)


def wrong():
    """A line for each root whose first comment doesn't end with its callers."""
    for root, users, line in wanted():
        comment = [row for row in root.read_text().split("\n\n", maxsplit=1)[0].split("\n") if row.startswith("//!")]
        if not comment or not (comment[-1] == line or names_two(comment[-1], users)):
            yield f"{root.relative_to(TOP)}: its first comment should end with the line {line}"
