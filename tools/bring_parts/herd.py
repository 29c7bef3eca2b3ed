"""Texts of herd's, as ztso's profile has them. The reader of tools/reference reads the text; what it would refuse is
rewritten in its place, and all else stays as its author wrote it."""

import re

from bring_parts import Refused, conditions, statements, texts, unsigned

import litmus
from faults import Fault

SPACED = re.compile(r"^([ \t]*)~([ \t]+)exists(?!\w)", re.MULTILINE)


class Rewriter(litmus.Reader):
    """Reads a text, and notes which pieces stand there for others: where each begins and ends, and what is changed."""

    def __init__(self, text):
        super().__init__(text)
        # the pieces, and for each change its lines
        self.edits, self.notes = [], {}
        self.objects = statements.Objects()
        # each hart's cells as their author wrote them, and the condition
        self.given, self.ending = [], None
        for shape in SPACED.finditer(self.text):
            # of the same length, so that all other places stay
            self.edit(shape.start(), shape.end(), f"{shape[1]}{shape[2]}~exists", "no blank after ~")
        self.text = SPACED.sub(r"\1\2~exists", self.text)

    def edit(self, start, end, made, note):
        self.edits.append((start, end, made))
        if note:
            self.notes.setdefault(note, []).append(self.line(start))

    def with_line(self, place, work, *words):
        """What the work returns; a refusal gets the line of the place."""
        try:
            return work(*words)
        except Refused as refused:
            raise Refused(f"line {self.line(place)}: {refused}") from None

    def item(self, at, end):
        try:
            return super().item(at, end)
        except Fault:
            raw = self.text[at:end]
            start = at + len(raw) - len(raw.lstrip())
            made, note = self.with_line(start, statements.item, raw, self.objects)
            self.edit(start, at + len(raw.rstrip()), made, note)
            hart = re.match(r"([0-9]+):", made)
            if hart:
                self.harts_of_init.append((int(hart[1]), start))
            return None

    def first_row(self, begin, row):
        super().first_row(begin, row)
        self.given = [[] for _ in row]

    def cells(self, begin, row, cells):
        for column, cell in zip(self.given, row):
            column.append(cell)
        at, made = self.text.rfind("\n", 0, begin) + 1, []
        for cell in row:
            text, note = self.with_line(begin, statements.cell, cell, self.objects)
            if text != cell:
                self.edit(at, at + len(cell), text, note)
            made.append(text)
            at += len(cell) + 1
        super().cells(begin, made, cells)

    def condition(self, start):
        if start is None:
            raise Refused("there is no condition: a line that begins with exists, ~exists or forall")
        ending = self.ending = self.with_line(start, conditions.ending, self.text[start:])
        for each in ending.equations():
            if each.value.startswith("-") and each.left in self.objects.small:
                raise Refused(f"condition: {each.left} is declared with fewer than 32 bits, and as a word is never "
                              f"{each.value}")
        self.objects.judge()
        if ending.notes:
            # a blank after ~ was moved before it, and is a part of the condition that is written anew
            begin = min([start, *(first for first, end, _ in self.edits if first < start < end)])
            self.edits = [edit for edit in self.edits if edit[0] < begin]
            self.edit(begin, len(self.text), ending.text() + "\n", None)
            for note in ending.notes:
                self.notes[note] = [self.line(start)]

    def made(self):
        """The text with what was rewritten."""
        parts, end = [], len(self.original)
        for start, last, text in sorted(self.edits, reverse=True):
            parts += [self.original[last:end], text]
            end = start
        return "".join([*parts, self.original[:end]][::-1])


def rewritten(text):
    """The text as ztso takes it, and the changes, each with its lines; where there are none it is the text itself."""
    head = re.match(r"\s*([^\s]*)", litmus.without_comments(text))[1]
    if head == "C":
        raise Refused("a C test: tools/from-c reads it")
    if head != "RISCV":
        raise Refused(f"the header is `{head[:20]}`, and ztso has RISCV alone" if head else "it is empty")
    notes = {}
    if has_nested(text):
        text, notes = unnested(text), {"comments without comments in them": []}
    rewriter = Rewriter(text)
    try:
        rewriter.read()
        made = rewriter.made()
        unsigned.check(rewriter.given, rewriter.test, litmus.read(made).registers, rewriter.ending)
    except Fault as fault:
        raise Refused(texts.said_of(fault)) from None
    return made, {**notes, **rewriter.notes}


def marks(text):
    """The openings and closings of comments, each with its place and the depth before it, where they nest."""
    depth = at = 0
    mark = re.compile(r"\(\*|\*\)")
    while found := mark.search(text, at):
        if found[0] == "(*" or depth:
            yield found.start(), found[0], depth
            depth += 1 if found[0] == "(*" else -1
        at = found.end()
    if depth:
        raise Refused("a comment isn't closed")


def has_nested(text):
    """Whether comments in comments make another text of what is read, from the init part on."""
    clean, other = litmus.without_comments(text), litmus.without_comments(unnested(text))
    brace = re.search(r"^[ \t]*\{", clean, re.MULTILINE)
    start = brace.start() if brace else 0
    return clean[start:] != other[start:]


def unnested(text):
    """The text with comments in comments broken, of the same length."""
    parts, at = [], 0
    for start, mark, depth in marks(text):
        if depth > (mark == "*)"):
            parts += [text[at:start], mark.replace("*", " ")]
            at = start + 2
    return "".join([*parts, text[at:]])
