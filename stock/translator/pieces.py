"""Source text cut into pieces: comments, literals, attributes' beginnings, words, blanks and signs."""

import re
from typing import NamedTuple

PIECE = re.compile(
    r"""
      (?P<comment>//[^\n]*)
    | (?P<literal>b?r(?P<hashes>\#*)".*?"(?P=hashes)
                 |b?"(?:\\.|[^"\\])*"
                 |b?'(?:\\(?:x..|u\{[^}]*\}|.)|[^\\'])')
    | (?P<attribute>\#!?\[)
    | (?P<word>[A-Za-z_][A-Za-z0-9_]*)
    | (?P<blank>\s+)
    | (?P<sign>.)
    """,
    re.VERBOSE | re.DOTALL,
)
CLOSING = {"{": "}", "[": "]", "(": ")"}


class Refused(Exception):
    """What the translator doesn't understand, and where it stands in the text."""

    def __init__(self, at, why):
        super().__init__(why)
        self.at, self.why = at, why


class Piece(NamedTuple):
    kind: str
    text: str
    at: int

    @property
    def end(self):
        return self.at + len(self.text)


def piece_at(text, at):
    found = PIECE.match(text, at)
    kind = found.lastgroup if found.lastgroup != "hashes" else "literal"
    return Piece(kind, found.group(), at)


def code_after(text, at):
    """The next piece that is neither blank nor a comment, or None at the end."""
    while at < len(text):
        piece = piece_at(text, at)
        if piece.kind not in ("blank", "comment"):
            return piece
        at = piece.end
    return None


def end_of_code(text, at):
    """After the bracket that closes the one at `at`, in Rust: brackets of literals and comments don't count."""
    opening, closing, depth = text[at], CLOSING[text[at]], 0
    place = at
    while place < len(text):
        piece = piece_at(text, place)
        inside = piece.text if piece.kind in ("sign", "attribute") else ""
        depth += inside.count(opening) - inside.count(closing)
        place = piece.end
        if depth == 0 and inside:
            return place
    raise Refused(at, f"no {closing} closes this {opening}")


def end_of_formula(text, at):
    """After the brace that closes the one at `at`, in a formula, which is no Rust and has no literals."""
    depth = 0
    for found in re.compile(r"[{}]").finditer(text, at):
        depth += 1 if found.group() == "{" else -1
        if depth == 0:
            return found.end()
    raise Refused(at, "no } closes this {")


def line_of(text, at):
    return text.count("\n", 0, at) + 1
