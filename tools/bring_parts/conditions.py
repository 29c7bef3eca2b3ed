"""The end of a litmus text as herd and litmus7 write it (`locations`, `filter` and the condition), taken to the
operators that ztso reads.

A condition is a list of pieces: equations, operators, parentheses, `true` and `false`. It isn't made a tree, so that
no depth of parentheses is too much. Whether its pieces make a condition is for the reader of litmus texts to say."""

import re
from dataclasses import dataclass, replace

from bring_parts import Refused

NAME = r"[A-Za-z_]\w*"
# a location, and the part of an object that a program names
PLACE = rf"{NAME}(?:::{NAME}){{0,9}}(?:\[[0-9]{{1,9}}\]|\.{NAME}){{0,9}}"
KEYWORD = re.compile(r"^[ \t]*(locations|filter|exists|~[ \t]*exists|forall)(?!\w)", re.MULTILINE)
PIECE = re.compile(rf"""
    (?P<blank>\s+) |
    (?P<word>/\\|\\/|=>|&&|\|\||~|\(|\)|(?:not|true|false)(?!\w)) |
    (?:(?P<hart>[0-9]{{1,9}})\s*:\s*(?P<register>{NAME}) | \[\s*(?P<bracketed>{PLACE})\s*\] |
       (?P<star>\*?)(?P<name>{PLACE}))
    \s* (?P<sign>==?|<>|!=) \s*
    (?P<value>-?0x[0-9A-Fa-f]+|-?[0-9]+|(?P<address>&?){PLACE})(?!\w)
    """, re.VERBOSE)
LEFT = re.compile(rf"(?:(?:[^;\[\]]*\s)?)[*\[]?\s*(?:([0-9]{{1,9}})\s*:\s*({NAME})|({PLACE}))\s*\]?")
SPELLINGS = {"&&": "/\\", "||": "\\/", "not": "~"}


@dataclass(frozen=True)
class Equation:
    """`left=value`, or that it differs. An observed location is `H:name`, `name` or `name[i]`."""
    left: str
    value: str
    differs: bool = False


def pieces_of(text):
    """The pieces of a condition, and whether ztso lacks one of them."""
    at, pieces, further = 0, [], False
    while at < len(text):
        shape = PIECE.match(text, at)
        if not shape:
            raise Refused(f"condition: `{' '.join(text[at:at + 30].split())}` is no operator and no equation")
        at = shape.end()
        if shape["word"]:
            pieces.append(SPELLINGS.get(shape["word"], shape["word"]))
            further |= shape["word"] in ("=>", "&&", "||", "true", "false")
        elif not shape["blank"]:
            left = f"{shape['hart']}:{shape['register']}" if shape["hart"] else shape["bracketed"] or shape["name"]
            pieces.append(Equation(left, shape["value"].lstrip("&"), shape["sign"] in ("<>", "!=")))
            further |= shape["sign"] != "=" or bool(shape["star"] or shape["address"])
    return pieces, further


def lefts_in(pieces):
    """The observed locations, each once, in order of first appearance."""
    return list(dict.fromkeys(piece.left for piece in pieces if isinstance(piece, Equation)))


def always(place):
    """A part that is always true, and has this observed location."""
    return f"({place}=0 \\/ ~{place}=0)"


def written(pieces, place):
    """The condition by `~`, `/\\` and `\\/` alone. `a => b`, which binds least and to the right, is `~(a) \\/ (b)`,
    and `true` is a part about the place."""
    # where a group or an arrow's right side begins, a slot is left for the `~(` of an arrow that may follow
    made, slots, arrows = [""], [0], [0]
    for piece in pieces:
        if piece == "=>":
            made[slots[-1]] = "~("
            made += [") \\/ (", ""]
            slots[-1], arrows[-1] = len(made) - 1, arrows[-1] + 1
        elif piece == "(":
            made += ["(", ""]
            slots.append(len(made) - 1)
            arrows.append(0)
        elif piece == ")":
            if len(slots) == 1:
                raise Refused("condition: it closes a parenthesis that isn't open")
            slots.pop()
            made.append(")" * (arrows.pop() + 1))
        elif isinstance(piece, Equation):
            made.append(f"{'~' * piece.differs}{piece.left}={piece.value}")
        elif piece in ("true", "false"):
            made.append("~" * (piece == "false") + always(place))
        else:
            made.append(piece if piece == "~" else f" {piece} ")
    return "".join(made) + ")" * arrows[0]


def grouped(text):
    """The condition as one group."""
    depth = 0
    for at, character in enumerate(text):
        depth += {"(": 1, ")": -1}.get(character, 0)
        if depth <= 0:
            return text if at == len(text) - 1 and text[0] == "(" else f"({text})"
    return f"({text})"


@dataclass(frozen=True)
class Ending:
    """The quantifier, the condition, the places of `locations`, and the filter."""
    kind: str
    pieces: list
    places: list
    filtered: list
    # what ztso lacks of it, in words
    notes: list

    def equations(self):
        return [piece for piece in self.pieces + self.filtered if isinstance(piece, Equation)]

    def lefts(self):
        return list(dict.fromkeys([*lefts_in(self.pieces), *self.places, *lefts_in(self.filtered)]))

    def renamed(self, left_of, value_of):
        """The same with other observed locations and values."""
        def of(pieces):
            return [replace(piece, left=left_of(piece.left), value=value_of(piece.value))
                    if isinstance(piece, Equation) else piece for piece in pieces]
        return replace(self, pieces=of(self.pieces), places=[left_of(place) for place in self.places],
                       filtered=of(self.filtered))

    def text(self):
        """The condition as ztso reads it: a filter is a part of it, and locations are parts that are always true."""
        if not self.lefts():
            raise Refused("condition: it has no equation and there are no locations")
        place = self.lefts()[0]
        whole = grouped(written(self.pieces, place))
        if self.filtered:
            front = grouped(written(self.filtered, place))
            whole = f"(~{front} \\/ {whole})" if self.kind == "forall" else f"({front} /\\ {whole})"
        shown = {*lefts_in(self.pieces + self.filtered), *[place] * self.needs_place()}
        further = [always(each) for each in dict.fromkeys(self.places) if each not in shown]
        if further:
            whole = "(" + " /\\ ".join([whole, *further]) + ")"
        return f"{self.kind} {whole}"

    def needs_place(self):
        return any(piece in ("true", "false") for piece in self.pieces + self.filtered)


def ending(text):
    """The end of a litmus text, from `locations`, `filter` or the quantifier on."""
    marks = []
    for mark in KEYWORD.finditer(text):
        marks.append(mark)
        if mark[1] not in ("locations", "filter"):
            break
    if not marks or marks[-1][1] in ("locations", "filter"):
        raise Refused("there is no condition: a line that begins with exists, ~exists or forall")
    parts, notes = {}, []
    for mark, end in zip(marks, [*(mark.start() for mark in marks[1:]), len(text)]):
        word = mark[1].replace(" ", "").replace("\t", "")
        if word in parts:
            raise Refused(f"there are two parts `{word}`")
        parts[word] = text[mark.end():end]
    kind = word
    pieces, further = pieces_of(parts[kind])
    places = places_of(parts["locations"]) if "locations" in parts else []
    filtered, more = pieces_of(parts.get("filter", ""))
    if further or more:
        notes.append("the condition by ~, /\\ and \\/ alone")
    if "filter" in parts:
        notes.append("the filter as a part of the condition: the runs that it drops are counted too")
    if "locations" in parts:
        notes.append("locations as parts of the condition that are always true")
    return Ending(kind, pieces, places, filtered, notes)


def places_of(text):
    """The places of `locations [x; 0:x5; a[1];]`, with types before them or none."""
    inside = text[text.find("[") + 1:text.rfind("]")]
    found = []
    for item in filter(None, (" ".join(each.split()) for each in inside.split(";"))):
        shape = LEFT.fullmatch(item) if len(item) < 200 else None
        if not shape:
            raise Refused(f"locations: `{item[:40]}` is no register and no location")
        found.append(f"{shape[1]}:{shape[2]}" if shape[1] else shape[3])
    return found
