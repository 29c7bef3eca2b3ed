"""Litmus texts, read by docs/litmus-texts.md: the test, or the first fault with its line.

Comments become blanks in place, so a position of the text is one of the file. A fault has the line of
what is faulty: an item of init, a row, a word of the condition. Where something joins lines (a comment,
or an item over several lines), that is the line of its first character that is no blank."""

import re
from dataclasses import dataclass, field

import assembly
from digits import of_digits
from faults import CONDITION, HEADER, INIT, INSTRUCTION, MANY, TABLE, at_line

HARTS, INSTRUCTIONS, LOCATIONS = 64, 4096, 1024
BLANKS = " \t"
WORDS = ("exists", "~exists", "forall", "locations", "filter")
# names are words that begin with a letter or `_`; `not` is none
NAME = r"(?!not(?![A-Za-z0-9_]))[A-Za-z_][A-Za-z0-9_]*"
VALUE = f"{NAME}|{assembly.NUMBER}"
BLANK_LINES = re.compile(r"[ \t\n]*")
# what an equation of the condition goes on to
MARK = re.compile(r"[()~/\\]|\Z")
NEGATION = re.compile(r"~|not(?![A-Za-z0-9_])")
ITEM_END = re.compile(r"[;}]")
ITEM = re.compile(rf"""
    (?P<typed>int[ \t\n]+)? (?P<name>{NAME}) [ \t\n]* (?:= [ \t\n]* (?P<value>{VALUE}))? |
    \[(?P<bracketed>{NAME})\] [ \t\n]* = [ \t\n]* (?P<bracketed_value>{VALUE}) |
    (?P<hart>[0-9]+) [ \t\n]* : [ \t\n]* (?P<register>[a-z0-9]+) [ \t\n]* = [ \t\n]*
    (?P<register_value>{VALUE})
    """, re.VERBOSE)
ATOM = re.compile(rf"""
    (?:(?P<hart>[0-9]+) [ \t\n]* : [ \t\n]* (?P<register>[a-z0-9]+) |
       (?P<name>{NAME}) | \[(?P<bracketed>{NAME})\])
    [ \t\n]* = [ \t\n]* (?P<value>{VALUE}) (?![A-Za-z0-9_])
    """, re.VERBOSE)


@dataclass
class Test:
    """What a litmus text defines. A place is `("register", hart, number)` or `("word", address)`."""
    codes: list = field(default_factory=list)
    locations: dict = field(default_factory=dict)
    registers: dict = field(default_factory=dict)
    words: dict = field(default_factory=dict)
    # of harts; a litmus text has none
    inboxes: dict = field(default_factory=dict)
    kind: str = ""
    # the condition in postfix: `("is", place, value)`, "not", "and", "or"
    condition: list = field(default_factory=list)
    # the condition's observed locations in order: the text and the place
    lefts: list = field(default_factory=list)
    name: str = ""
    # the condition in one line, without comments
    asked: str = ""
    # each hart's cells: the line, the text, the label or None, and how many words it makes
    columns: list = field(default_factory=list)

    def holds(self, value_of):
        """Whether the verdict is Holds, given the final value of each place."""
        stack = []
        for part in self.condition:
            if part == "not":
                stack.append(not stack.pop())
            elif part in ("and", "or"):
                second, first = stack.pop(), stack.pop()
                stack.append(first and second if part == "and" else first or second)
            else:
                stack.append(value_of(part[1]) == part[2])
        return stack.pop() != (self.kind == "~exists")


def without_comments(text):
    """The text with a blank for each character of a comment."""
    parts, at = [], 0
    while True:
        start = text.find("(*", at)
        if start < 0:
            return "".join(parts) + text[at:]
        end = text.find("*)", start + 2)
        end = len(text) if end < 0 else end + 2
        parts += [text[at:start], " " * (end - start)]
        at = end


def last_line(text):
    """The last line that holds more than its line end."""
    end = len(text)
    while end and text[end - 1] == "\n":
        end -= 2 if text[max(end - 2, 0):end] == "\r\n" else 1
    return 1 + text.count("\n", 0, end)


class Reader:
    def __init__(self, text):
        self.original = text
        self.text = without_comments(text)
        self.test = Test()
        self.ends = [at for at, character in enumerate(text) if character == "\n"]

    def line(self, at):
        """The number of the line that a position is in."""
        low, high = 0, len(self.ends)
        while low < high:
            middle = (low + high) // 2
            low, high = (middle + 1, high) if self.ends[middle] < at else (low, middle)
        return low + 1

    def fault(self, number, at=None):
        """A fault at a position, or for what is missing."""
        return at_line(number, last_line(self.original) if at is None else self.line(at))

    def lines(self, at):
        """The lines from a position on: where each begins, its text, and where the next begins."""
        while at < len(self.text):
            end = self.text.find("\n", at)
            following = len(self.text) if end < 0 else end + 1
            line = self.text[at:] if end < 0 else self.text[at:end].removesuffix("\r")
            yield at, line, following
            at = following

    def read(self):
        at = self.header()
        at = self.init(at)
        at, start = self.table(at)
        self.condition(start)
        return self.test

    def header(self):
        """Reads the header and returns the place behind the brace that opens init."""
        lines = self.lines(0)
        for at, line, _ in lines:
            if line.strip(BLANKS):
                if not re.match(r"[ \t]*RISCV[ \t]+[^ \t]", line):
                    raise self.fault(HEADER, first_place(at, line))
                self.test.name = re.findall(r"[^ \t]+", line)[1]
                break
        else:
            raise self.fault(HEADER)
        for at, line, _ in lines:
            if line.strip(BLANKS).startswith("{"):
                return first_place(at, line) + 1
        raise self.fault(INIT)

    def location(self, name, at):
        """The address of a location, which may be a new one."""
        locations = self.test.locations
        if name not in locations:
            if len(locations) == LOCATIONS:
                raise self.fault(MANY, at)
            locations[name] = 4 * len(locations)
        return locations[name]

    def value(self, text, number, at):
        """The word of a number or of a name, which stands for its address."""
        if not re.fullmatch(assembly.NUMBER, text):
            return self.location(text, at)
        value = assembly.integer(text)
        if not -(1 << 31) <= value < 1 << 32:
            raise self.fault(number, at)
        return value % (1 << 32)

    def init(self, at):
        """Reads the items and returns the place behind the closing brace."""
        self.harts_of_init = []
        while True:
            shape = ITEM_END.search(self.text, at)
            end = shape.start() if shape else len(self.text)
            self.item(at, end)
            if not shape:
                raise self.fault(INIT)
            if shape[0] == "}":
                return end + 1
            at = end + 1

    def item(self, at, end):
        text = self.text[at:end].replace("\r\n", " \n")
        item = text.strip(" \t\n")
        if not item:
            return
        at += len(text) - len(text.lstrip(" \t\n"))
        shape = ITEM.fullmatch(item)
        if not shape:
            raise self.fault(INIT, at)
        if shape["hart"]:
            if shape["register"] not in assembly.REGISTERS:
                raise self.fault(INIT, at)
            hart = of_digits(shape["hart"])
            self.harts_of_init.append((hart, at))
            number = assembly.REGISTERS[shape["register"]]
            self.test.registers[hart, number] = self.value(shape["register_value"], INIT, at)
            return
        value = shape["value"] or shape["bracketed_value"]
        if value is None and not shape["typed"]:
            raise self.fault(INIT, at)
        address = self.location(shape["name"] or shape["bracketed"], at)
        self.test.words[address] = self.value(value or "0", INIT, at)

    def table(self, at):
        """Reads the table and returns its end and where the condition begins, if it does."""
        condition, rows, cells = None, 0, []
        for at, line, following in self.lines(at):
            begin = first_place(at, line)
            if line.strip(BLANKS).startswith(WORDS):
                condition = begin
                break
            if line.strip(BLANKS):
                row = self.row(begin, line)
                rows += 1
                if rows == 1:
                    self.first_row(begin, row)
                else:
                    self.cells(begin, row, cells)
        if not rows:
            raise self.fault(TABLE)
        self.place_labels(cells)
        for hart, place in self.harts_of_init:
            if hart >= len(self.test.codes):
                raise self.fault(INIT, place)
        return at, condition

    def row(self, begin, line):
        row, end, rest = line.partition(";")
        if not end or rest.strip(BLANKS):
            raise self.fault(TABLE, begin)
        row = row.split("|")
        if self.test.codes and len(row) != len(self.test.codes):
            raise self.fault(TABLE, begin)
        return row

    def first_row(self, begin, row):
        if len(row) > HARTS:
            raise self.fault(MANY, begin)
        for hart, cell in enumerate(row):
            if cell.strip(BLANKS) != f"P{hart}":
                raise self.fault(TABLE, begin)
        self.test.codes = [[] for _ in row]
        self.test.columns = [[] for _ in row]
        self.labels = [{} for _ in row]

    def cells(self, begin, row, cells):
        for hart, cell in enumerate(row):
            code, labels = self.test.codes[hart], self.labels[hart]
            try:
                label, made = assembly.statement(cell)
                assembly.need(label is None or label not in labels)
            except assembly.Refused:
                raise self.fault(INSTRUCTION, begin) from None
            if label is not None:
                labels[label] = len(code)
            self.test.columns[hart].append((self.line(begin), cell, label, len(made)))
            cells += [(begin, hart, len(code) + i) for i in range(len(made))]
            code += made
            if len(code) > INSTRUCTIONS:
                raise self.fault(MANY, begin)

    def place_labels(self, cells):
        """Puts distances in the place of labels, once all rows are read."""
        for begin, hart, at in cells:
            code = self.test.codes[hart]
            try:
                code[at] = assembly.placed(code[at], at, self.labels[hart])
            except assembly.Refused:
                raise self.fault(INSTRUCTION, begin) from None

    def condition(self, start):
        if start is None:
            raise self.fault(CONDITION)
        word = next(word for word in WORDS if self.text.startswith(word, start))
        if word in ("locations", "filter"):
            raise self.fault(CONDITION, start)
        self.test.kind = word
        self.test.asked = " ".join(re.findall(r"[^ \t\r\n]+", self.text[start:]))
        unread = next((first_place(at, line) for at, line, _ in self.lines(start)
                       if line.strip(BLANKS).startswith(("locations", "filter"))), None)
        self.expression(start + len(word), unread)

    def expression(self, at, unread):
        """Reads the expression to postfix, with a list of what is still open in place of recursion. It goes on to a line
        that isn't read, if there is one."""
        text = re.sub("\r\n", " \n", self.text)[:unread]
        wants_operand, opened, postfix = True, [], self.test.condition
        ranks = {"(": 0, "or": 1, "and": 2, "not": 3}
        while True:
            at = BLANK_LINES.match(text, at).end()
            if at == len(text):
                if unread is not None:
                    raise self.fault(CONDITION, unread)
                if wants_operand or "(" in opened:
                    raise self.fault(CONDITION)
                postfix += reversed(opened)
                return
            if wants_operand:
                negation = NEGATION.match(text, at)
                if negation or text[at] == "(":
                    opened.append("not" if negation else "(")
                    at = negation.end() if negation else at + 1
                else:
                    at = self.atom(text, at)
                    wants_operand = False
            elif text[at] == ")":
                while opened and opened[-1] != "(":
                    postfix.append(opened.pop())
                if not opened:
                    raise self.fault(CONDITION, at)
                opened.pop()
                at += 1
            else:
                operator = {"/\\": "and", "\\/": "or"}.get(text[at:at + 2])
                if not operator:
                    raise self.fault(CONDITION, at)
                while opened and ranks[opened[-1]] >= ranks[operator]:
                    postfix.append(opened.pop())
                opened.append(operator)
                at += 2
                wants_operand = True

    def atom(self, text, at):
        """Reads one equation, which goes on to the next mark, and returns the place behind it."""
        shape, mark = ATOM.match(text, at), MARK.search(text, at)
        if not shape or BLANK_LINES.match(text, shape.end()).end() < mark.start():
            raise self.fault(CONDITION, at)
        if shape["hart"]:
            hart, number = of_digits(shape["hart"]), assembly.REGISTERS.get(shape["register"])
            if number is None or hart >= len(self.test.codes):
                raise self.fault(CONDITION, at)
            name, place = f"{hart}:x{number}", ("register", hart, number)
        else:
            name = shape["name"] or shape["bracketed"]
            place = ("word", self.location(name, at))
        value = self.value(shape["value"], CONDITION, at)
        if all(place != other for _, other in self.test.lefts):
            self.test.lefts.append((name, place))
        self.test.condition.append(("is", place, value))
        return shape.end()


def first_place(at, line):
    """The place of a line's first character that is no blank."""
    return at + len(line) - len(line.lstrip(BLANKS))


def read(text):
    return Reader(text).read()
