"""The answer that a person reads: what it has, and how it becomes at most ten lines of at most a hundred columns. A line says what the program printed, or
what its `replay` shows of a schedule. What is more begins with `hint:`, and what drawn runs alone saw says so."""

import re
import textwrap
from dataclasses import dataclass, field

from bring_parts.queue_places import Source

LINES, COLUMNS, INDENT, CUT = 10, 100, "    ", " .."
# how soon a line is left out where there is no room: never, or before those of a smaller number
ALWAYS, HELP, MODEL, DRAWN, FENCES, SEARCH, LONGER, WEAK = range(8)
LONG = re.compile(rf"\S{{{COLUMNS - len(INDENT) + 1},}}")
# a line's text of a source is cut to this much where there is no room
SHORT_TEXT = 24


@dataclass(frozen=True)
class At:
    """A line for an instruction, to which an editor jumps: where it comes from, and what it does."""
    hart: int
    pc: int
    source: Source
    says: str

    def parts(self, most=None):
        place, text = self.source.place(), self.source.text
        if most and len(text) > most:
            text = text[:most].rstrip() + CUT
        return f"{place}{': ' * bool(place)}P{self.hart}: {text}", f"[pc {self.pc}] {self.says}"

    def lines(self, is_cut=False):
        before, after = self.parts()
        if len(before) + 2 + len(after) <= COLUMNS:
            return [f"{before}  {after}"]
        if is_cut:
            before, after = self.parts(max(COLUMNS - len(after) - 2 - (len(before) - len(self.source.text)) - len(CUT), SHORT_TEXT))
            if len(before) + 2 + len(after) <= COLUMNS:
                return [f"{before}  {after}"]
        return [*wrapped(before), *wrapped(INDENT + after)]

    def data(self):
        """The same for scripts."""
        return {"file": self.source.file, "line": self.source.line, "text": self.source.text, "hart": self.hart, "pc": self.pc, "says": self.says}


@dataclass(frozen=True)
class Line:
    """A further line, how soon it is left out, and whether it is never cut."""
    text: str
    rank: int = ALWAYS
    is_whole: bool = False


@dataclass
class Short:
    """An answer: the verdict, at most two places, what else is known, the run in one sentence and what a report draws of it, what one may rely on, and
    that in fewer lines, for where there is no room, what to change, what isn't promised, what fences and other memory say, and what was asked."""
    verdict: str
    places: list = field(default_factory=list)
    facts: list = field(default_factory=list)
    run: str = None
    shown: object = None
    relies: list = field(default_factory=list)
    joined: list = field(default_factory=list)
    hints: list = field(default_factory=list)
    limits: list = field(default_factory=list)
    others: list = field(default_factory=list)
    asked: list = field(default_factory=list)

    def parts(self, relies):
        """The lines in their order, of which these are what one may rely on."""
        run = [Line(f"a run: {self.run}", is_whole=True)] * bool(self.run)
        return [Line(self.verdict, is_whole=True), *self.places, *self.facts, *run, *(Line(f"rely on: {each}") for each in relies),
                *(Line(f"hint: {each.text}", each.rank) for each in self.hints), *self.limits, *self.others, *self.asked]

    def lines(self):
        """At most ten lines, of which what fits least is left out, and then the longest are cut."""
        parts = fitting(self.parts(self.relies))
        if self.joined and number_of(parts) > LINES:
            parts = fitting(self.parts(self.joined))
        is_cut = number_of(parts) > LINES
        lines = [lines_of(part, is_cut) for part in parts]
        while sum(map(len, lines)) > LINES and (long := [at for at, part in enumerate(parts) if is_cuttable(part) and len(lines[at]) > 1]):
            longest = max(long, key=lambda at: len(lines[at]))
            *kept, last, _ = lines[longest]
            lines[longest] = [*kept, last[:COLUMNS - len(CUT)].rstrip(" ,;") + CUT]
        is_full = sum(map(len, lines)) > LINES
        return [line for part, each in zip(parts, lines) for line in each if not (is_full and isinstance(part, Line) and part.rank == HELP)]

    def data(self):
        """What scripts find in answer.json."""
        return {"short": self.lines(), "places": [place.data() for place in self.places],
                "run": {"sentence": self.run, "schedule": self.shown.schedule if self.shown else None} if self.run else None}


def fitting(parts):
    """These without what is left out where there is no room for all."""
    for rank in range(WEAK, HELP, -1):
        if number_of(parts) > LINES:
            parts = [part for part in parts if isinstance(part, At) or part.rank != rank]
    return parts


def is_cuttable(part):
    return isinstance(part, Line) and not part.is_whole


def lines_of(part, is_cut=False):
    return part.lines(is_cut) if isinstance(part, At) else wrapped(part.text)


def number_of(parts):
    return sum(len(lines_of(part)) for part in parts)


def wrapped(line):
    """A line in as many as it needs. A description of a queue that is longer than one may go on after a comma, which tools/queue takes so, too."""
    line = LONG.sub(lambda shape: shape[0].replace(",", ", "), line)
    begin = INDENT if line.startswith(INDENT) else ""
    return textwrap.wrap(line.strip(), COLUMNS, initial_indent=begin, subsequent_indent=INDENT, break_long_words=False, break_on_hyphens=False)
