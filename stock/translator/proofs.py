"""What only the prover reads, and where it ends: clauses, ghost items, `#[tactic]`, and how a value is dropped."""

import re

from .pieces import Refused, end_of_code, end_of_formula

CLAUSES = ("requires", "ensures")
CLAUSE = re.compile(r"(?:requires|ensures)(?:\s+[a-z_0-9]+)?\s*(?=\{)")
GHOST_USE = re.compile(r"ghost\s+use\b[^;]*;")
# `ghost NAME = { VALUE };`, `ghost NAME : { TYPE } = { VALUE };`, `ghost NAME : { TYPE };`
GHOST_ITEM = re.compile(r"ghost\s+[A-Za-z_0-9]+\s*(?P<sign>[=:])\s*(?=\{)")
VALUE = re.compile(r"\s*=\s*(?=\{)")
# Where one looks for them without reading the text: the beginnings of lines, outside of comments.
AT_LINE = re.compile(r"^[ \t]*(?:pub(?:\([a-z]+\))?[ \t]+)?(requires|ensures|ghost)\b", re.MULTILINE)
# A value that is taken apart; what it was made of goes by itself.
TAKEN_APART = re.compile(r"\{\s*fn drop\(self\) \{\s*let \w+ \{[\w\s:,]*\} = self;\s*(?:\w+\.give_up\(\);\s*)?\}\s*\}")


def end_of_clause(text, at):
    """After the clause whose `requires` or `ensures` stands at `at`."""
    found = CLAUSE.match(text, at)
    if not found:
        raise Refused(at, "no clause begins at this word, and it can be no name")
    return end_of_formula(text, found.end())


def end_of_ghost(text, at):
    """After the item whose `ghost` stands at `at`."""
    found = GHOST_USE.match(text, at)
    if found:
        return found.end()
    found = GHOST_ITEM.match(text, at)
    if not found:
        raise Refused(at, "a ghost item of a form that the translator doesn't know")
    end = end_of_formula(text, found.end())
    value = VALUE.match(text, end)
    if value and found["sign"] == ":":
        end = end_of_formula(text, value.end())
    if text[end : end + 1] in (";", ","):
        return end + 1
    raise Refused(at, "a ghost item that doesn't end in a semicolon")


def end_of_drop(text, at):
    """After the body of an `impl Drop`, which opens at `at`. It may only take the value apart."""
    end = end_of_code(text, at)
    if not TAKEN_APART.fullmatch(text, at, end):
        raise Refused(at, "a `drop` that does more than take its value apart")
    return end


def lines_of_proofs(text):
    """The places at which a line begins with a word of the prover's, found without reading the text."""
    return {found.start(1) for found in AT_LINE.finditer(text)}
