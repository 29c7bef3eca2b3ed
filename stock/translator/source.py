"""One source file as stock Rust reads it. Every line keeps its number."""

import re

from . import proofs
from .pieces import Piece, Refused, code_after, end_of_code, piece_at

# In scope in every module, as the kit's own names are.
PRELUDE = "use std::{assert, assert_eq, panic, prelude::*};"
# Methods that take an allocator or a handle and have the names of core's own.
RENAMED = {"collect": "collect_in", "to_string": "to_string_in", "to_vec": "to_vec_in", "expect": "expect_on"}
KEPT_ATTRIBUTES = ("cfg", "error", "error_bound", "inline", "macro_export", "test")
ATTRIBUTE = re.compile(r"#(!?)\[\s*(\w+)")
HANDLE = re.compile(r"\(\s*&?\$?rt\s*,")
IMPL_DROP = re.compile(r"impl\b[^{};]*?\bDrop for\b[^{]*(?=\{)")
MODULE = re.compile(r"mod\s+\w+\s*\{")
TEST = re.compile(r"\s*fn (\w+)\(rt: HostRuntime\)([^{]*)\{")
WRITES = "fn fmt<W: fmt::Write>(&self, f: &mut fmt::Formatter<W>)"
WRITES_OF_CORE = "fn fmt(&self, f: &mut fmt::Formatter<'_>)"
MAIN = re.compile(r"^fn main\(rt: HostRuntime\)", re.MULTILINE)
# The status and the words of a program that finds no memory, as crates/ztso/src/failure.rt has them.
START = 'std::program!(main, 4, "ztso: no memory\\n");\n'
# The next piece that may be written otherwise, or one that could hide such a one: a comment or a literal.
NEXT = re.compile(
    rf"""(?P<kept>//[^\n]*|(?<!\w)b?r(?P<hashes>\#*)".*?"(?P=hashes)|"(?:\\.|[^"\\])*"|'(?:\\(?:x..|u\{{[^}}]*\}}|.)|[^\\'])')
    |\#!?\[|\b(?:{"|".join((*proofs.CLAUSES, *RENAMED, "ghost", "impl", "mod", "fn"))})\b""",
    re.VERBOSE | re.DOTALL,
)


class Reading:
    """A text that is read once, from its beginning to its end, and what is written for it."""

    def __init__(self, text, is_root):
        self.text, self.is_root = text, is_root
        self.written, self.at = [], 0
        self.dropped = {}
        self.has_prelude = False
        self.is_program = is_root and bool(MAIN.search(text))

    def keep(self, piece, as_text=None):
        self.written.append(piece.text if as_text is None else as_text)
        self.at = piece.end

    def drop(self, kind, end):
        """Writes nothing up to `end` except the ends of lines."""
        self.dropped.setdefault(kind, set()).add(self.at)
        self.written.append("\n" * self.text.count("\n", self.at, end))
        self.at = end

    def unwrite(self, word):
        """Takes back a word that was written last, with the blanks after it."""
        place = len(self.written) - 1
        while place >= 0 and not self.written[place].strip():
            place -= 1
        if place >= 0:
            self.written[place] = re.sub(rf"\b{word}(?=\s*\Z)", "", self.written[place])

    def keep_plain(self):
        """Writes what stands before the next piece that may be written otherwise."""
        found = NEXT.search(self.text, self.at)
        while found and found["kept"]:
            found = NEXT.search(self.text, found.end())
        end = found.start() if found else len(self.text)
        if end > self.at:
            self.keep(Piece("plain", self.text[self.at : end], self.at))

    def translated(self):
        while self.at < len(self.text):
            if self.has_prelude:
                self.keep_plain()
                if self.at == len(self.text):
                    break
            piece = piece_at(self.text, self.at)
            begins = piece.kind not in ("blank", "comment") or piece.text.startswith("///")
            if begins and not self.has_prelude and not self.text.startswith("#!", self.at):
                self.written.append(PRELUDE + " ")
                self.has_prelude = True
            getattr(self, f"take_{piece.kind}", self.keep)(piece)
        self.compare_with_lines()
        if self.is_program:
            self.written.append(START)
        return "".join(self.written)

    def take_attribute(self, piece):
        found = ATTRIBUTE.match(self.text, self.at)
        end = end_of_code(self.text, self.at + len(piece.text) - 1)
        name = found[2] if found else ""
        if name == "tactic":
            self.drop("tactic", end)
            if found[1] and self.is_root:
                self.written.append("#![no_std]" + (" #![no_main]" if self.is_program else ""))
        elif name == "cycle":
            self.drop("cycle", end)
        elif name == "derive":
            self.take_derive(end)
        elif name in KEPT_ATTRIBUTES:
            self.written.append(self.text[self.at : end])
            self.at = end
            if name == "test":
                self.take_test()
        else:
            raise Refused(self.at, f"an attribute that the translator doesn't know: {self.text[self.at:end]}")

    def take_derive(self, end):
        names = re.findall(r"[\w:]+", self.text[self.at : end])[1:]
        kept = [name for name in names if name != "Drop"]
        if kept:
            self.written.append(f"#[derive({', '.join(kept)})]")
            self.at = end
        else:
            self.drop("derive", end)

    def take_test(self):
        """A test makes its handle itself."""
        found = TEST.match(self.text, self.at)
        if not found:
            raise Refused(self.at, "a test that doesn't begin `fn NAME(rt: HostRuntime)`")
        blanks = "\n" * self.text.count("\n", self.at, found.start(1))
        self.written.append(f"{blanks}fn {found[1]}(){found[2]}{{ let rt = HostRuntime::new();")
        self.at = found.end()

    def take_word(self, piece):
        if piece.text in proofs.CLAUSES:
            self.drop(piece.text, proofs.end_of_clause(self.text, self.at))
        elif piece.text == "ghost":
            self.unwrite("pub")
            self.drop("ghost", proofs.end_of_ghost(self.text, self.at))
        elif piece.text == "impl" and IMPL_DROP.match(self.text, self.at):
            self.drop("impl Drop", proofs.end_of_drop(self.text, IMPL_DROP.match(self.text, self.at).end()))
        elif piece.text == "mod" and MODULE.match(self.text, self.at):
            end = MODULE.match(self.text, self.at).end()
            self.written.append(f"{self.text[self.at:end]} {PRELUDE}")
            self.at = end
        elif self.text.startswith(WRITES, self.at):
            self.written.append(WRITES_OF_CORE)
            self.at += len(WRITES)
        else:
            self.keep(piece, self.name_of(piece))

    def name_of(self, piece):
        """The word, or the name of the stand-in's method where it is a call of a method with an allocator or a handle."""
        if piece.text not in RENAMED or not self.text.endswith(".", 0, piece.at):
            return piece.text
        if not self.text.startswith("(", piece.end):
            return piece.text
        with_handle = HANDLE.match(self.text, piece.end)
        argument = code_after(self.text, piece.end + 1)
        is_ours = with_handle if piece.text == "expect" else argument and argument.text != ")"
        return RENAMED[piece.text] if is_ours else piece.text

    def compare_with_lines(self):
        """Refuses a text of which not exactly those clauses and ghost items were dropped that begin a line."""
        dropped = set().union(*(self.dropped.get(kind, ()) for kind in (*proofs.CLAUSES, "ghost")))
        inside = {place for place in proofs.lines_of_proofs(self.text)}
        for place in sorted(dropped - inside):
            raise Refused(place, "a clause or ghost item that doesn't begin its line, as `rt fmt` lays it out")
        for place in sorted(inside - dropped):
            raise Refused(place, "a clause or ghost item that was not read as one")


def translated(text, is_root):
    """A file's text as stock Rust reads it; `is_root` says whether it is its crate's first file."""
    if is_root and "#![tactic(auto)]" not in text:
        raise Refused(0, "the root of a crate without `#![tactic(auto)]`")
    return Reading(text, is_root).translated()
