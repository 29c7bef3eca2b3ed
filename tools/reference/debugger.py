"""The debugger's commands, and what each prints."""

import re

from digits import of_digits
from machine import MEMORY, Machine, hart_lines, word_at

MOST = 1 << 32


def commands(content):
    """The lines of an input of bytes, each as its words, or as None where it is no UTF-8."""
    *whole, last = content.split(b"\n")
    for line in [line.removesuffix(b"\r") for line in whole] + ([last] if last else []):
        try:
            yield [word for word in re.split("[ \t]+", line.decode()) if word]
        except UnicodeDecodeError:
            yield None


class Session:
    def __init__(self, test, schedule, capacity):
        self.machine = Machine(test, capacity)
        self.state, self.schedule, self.place = self.machine.opening, schedule, 0
        # of each event done: the state and the place before it
        self.before, self.breakpoints = [], set()

    def event(self, event):
        outcome, _, state = self.machine.step(self.state, event)
        self.before.append((self.state, self.place))
        self.state = state
        return [outcome]

    def next(self):
        event = self.schedule[self.place]
        outcome = self.event(event)
        self.place += 1
        return outcome

    def held_up(self):
        """Where the next event's hart stands, if a breakpoint holds it up."""
        way, hart = self.schedule[self.place]
        if way == "a" and hart < len(self.state[0]):
            at = hart, self.state[0][hart][0]
            return at if at in self.breakpoints else None
        return None

    def go(self):
        lines, first = [], True
        while self.place < len(self.schedule):
            at = None if first else self.held_up()
            if at:
                return [*lines, f"break {at[0]} {at[1]}"]
            lines += self.next()
            first = False
        return [*lines, "end"]

    def back(self, count):
        count = min(count, len(self.before))
        if count:
            self.state, self.place = self.before[-count]
            del self.before[-count:]
        return []

    def toggle(self, at):
        self.breakpoints ^= {at}
        return []

    def answer(self, words):
        """The lines that a command prints."""
        unknown = ["?"]
        if not words or not all(re.fullmatch("[0-9]+", word) for word in words[1:]):
            return unknown
        name, numbers = words[0], [of_digits(word) for word in words[1:]]
        if name in ("s", "g", "t") and not numbers:
            if name == "t":
                return [str(len(self.before))]
            if name == "g":
                return self.go()
            return self.next() if self.place < len(self.schedule) else ["end"]
        if name == "u" and len(numbers) == 1:
            return self.back(numbers[0])
        if len(numbers) != {"a": 1, "l": 1, "b": 2, "r": 1, "p": 1, "w": 1}.get(name) or max(numbers) >= MOST:
            return unknown
        first, harts = numbers[0], self.state[0]
        if name in ("a", "l"):
            return self.event((name, first))
        if name == "w":
            return [str(word_at(self.state[1], first))] if first % 4 == 0 and first < MEMORY else unknown
        if first >= len(harts):
            return unknown
        if name == "b":
            return self.toggle(tuple(numbers))
        if name == "r":
            return hart_lines(first, harts[first])
        return [f"{address} {value}" + ("" if width == 4 else f" {width}")
                for address, width, value in harts[first][3]]


def session(test, schedule, capacity, content):
    """What a session prints."""
    session, lines = Session(test, schedule, capacity), []
    for words in commands(content):
        if words == ["q"]:
            break
        lines += session.answer(words)
    return lines
