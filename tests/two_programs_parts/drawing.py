"""Questions that are drawn: texts of the shelf, of the examples and of each grammar, whole and damaged, with commands
and options."""

import random
import re
import runpy

from hostile_parts import examples, texts
from ring_kinds import RINGS
from witnesses import witnesses

from . import ROOT, Question

changed = runpy.run_path(str(ROOT / "tools/reference/compare"))["changed"]
BUFFERS = ("1", "2", "4", "4", "16", "3", "x")
RINGS = sorted((ROOT / "examples/rings").glob("*.asm"))
DEBUGGED = ("s", "g", "t", "u 1", "u 2", "u 99999999999999999999999", "p 0", "r 0", "r 1", "w 0", "w 4", "a 0", "l 1", "a0 a1",
            "l0*2", "a0*3 l0", "b 0 4", "b 1 8", "b 0 0", "?", "q", "t 0", "r 9", "x", "")
STATEMENTS = re.findall(rb"^(?:\w+:)? *(\w.*?)(?: *#.*)?$", examples.FORMS, re.MULTILINE)


class Test:
    """A test of the shelf, or of the examples."""

    def __init__(self, path):
        self.name, self.text = str(path.relative_to(ROOT)), path.read_text()
        self.harts = len(set(re.findall(r"\bP(\d+)\b", self.text)))
        self.witnesses = list(witnesses(path).values())


class Draw:
    """Draws questions, one kind after the other. `record_of` is the text of version 2 that a program makes of a test
    and a schedule."""

    def __init__(self, seed, record_of):
        self.random, self.record_of = random.Random(seed), record_of
        self.tests = [Test(path) for part in ("litmus", "examples") for path in sorted((ROOT / part).rglob("*.litmus"))]
        self.called = [test for test in self.tests if "/callers/" in test.name or "/handover." in test.name]
        self.grammars = list(texts.grammars())
        self.kinds = list(examples.kinds())
        self.ways = [self.litmus, self.litmus, self.schedule, self.search, self.drawn_runs, self.records, self.debugger,
                     self.channel, self.ring, self.callers, self.steps, self.assembly, self.words, self.grammar, self.words_of_a_command,
                     self.threads]

    def question(self, number):
        return self.ways[number % len(self.ways)]()

    def one_of(self, *choices):
        return self.random.choice(choices)

    def whole_or_changed(self, text, whole=1):
        """The text: `whole` times in `whole` + 2 as it is, else with some changes."""
        return text if self.random.randrange(whole + 2) < whole else changed(self.random, text)

    def options(self, *options):
        """Each of these options with one of its values, or left out."""
        for name, *values in options:
            if self.random.randrange(3) == 0:
                yield from [f"--{name}", self.one_of(*values)] if values else [f"--{name}"]

    def buffer(self):
        return self.options(("buffer", *BUFFERS))

    def schedule_of(self, test):
        """A schedule's text: a witness, or drawn events."""
        if test.witnesses and self.random.randrange(3) == 0:
            return self.one_of(*test.witnesses)
        harts = max(1, test.harts) + (self.random.randrange(10) == 0)
        events = [f"{self.one_of('a', 'a', 'l')}{self.random.randrange(harts)}{self.one_of('', '', '', '*2', '*7')}"
                  for _ in range(self.random.randrange(60))]
        return "ztso-schedule 1\n" + " ".join(events) + self.one_of("", "\n")

    def on_test(self, kind, command, options, schedule=None, stdin="", text=None):
        """A question about a test, with the files `test` and, where there is one, `schedule`."""
        files = {"test": text.encode()}
        if schedule is not None:
            files["schedule"] = schedule.encode()
        return Question(kind, [command, *files, *options], stdin.encode(), files)

    def litmus(self):
        test = self.one_of(*self.tests)
        text, schedule = self.whole_or_changed(test.text), self.schedule_of(test)
        command = self.one_of("run", "replay", "move", "shrink", "chart", "show")
        if command == "show":
            return self.on_test("litmus", command, [*self.options(("steps",)), *self.buffer()], None, "", text)
        options = [*self.buffer(), *(self.options(("svg",), ("memory",)) if command == "chart" else ())]
        return self.on_test("litmus", command, options, schedule, "", text)

    def schedule(self):
        test = self.one_of(*self.tests)
        text = self.schedule_of(test)
        if self.random.randrange(2):
            text = self.record_of(test.text, text) or text
        command = self.one_of("run", "replay", "move", "shrink", "chart")
        return self.on_test("schedules", command, self.buffer(), self.whole_or_changed(text), "", test.text)

    def search(self):
        test = self.one_of(*self.tests)
        states = ["--states", self.one_of("1", "20", "300", "2000", "0")]
        return self.on_test("find", "find", [*states, *self.buffer()], None, "", self.whole_or_changed(test.text, 4))

    def drawn_runs(self):
        test = self.one_of(*self.tests)
        options = ["--seed", self.one_of("0", "7", "18446744073709551615", str(self.random.randrange(2**64))), "--runs",
                   self.one_of("1", "30", "100"), "--length", self.one_of("0", "9", "60", "200")]
        options += self.options(("jobs", "1", "2", "3", "65"), ("skip", "1", "70", "18446744073709551615"))
        return self.on_test("try", "try", [*options, *self.buffer()], None, "", self.whole_or_changed(test.text, 8))

    def records(self):
        test = self.one_of(*self.tests)
        made = [self.record_of(test.text, self.schedule_of(test)) or "" for _ in range(self.random.randrange(1, 4))]
        stdin = self.whole_or_changed("".join(made))
        return self.on_test("check", "check", self.buffer(), None, stdin, test.text)

    def debugger(self):
        test = self.one_of(*self.tests)
        typed = "\n".join(self.one_of(*DEBUGGED) for _ in range(self.random.randrange(40)))
        typed = self.whole_or_changed(typed, 4) + self.one_of("", "\n", "\nq\n")
        return self.on_test("debug", "debug", self.buffer(), self.schedule_of(test), typed, test.text)

    def lists(self):
        lists = [" ".join(self.list_word() for _ in range(self.random.randrange(5))) for _ in range(self.random.randrange(1, 5))]
        return self.whole_or_changed("\n".join(lists) + self.one_of("", "\n"), 6), len(lists) + 1

    def list_word(self):
        """A word of a sender's list, now and then one that it can't have."""
        return self.one_of("0", "4294967296", "4294967295", *(str(self.random.randrange(1, 2**32)) for _ in range(40)))

    def channel(self):
        kind, (lists, harts) = self.one_of(*RINGS, "own", "other"), self.lists()
        events = " ".join(f"{self.one_of('a', 'a', 'a', 'l')}{self.random.randrange(harts)}*{self.random.randrange(1, 40)}"
                          for _ in range(self.random.randrange(40)))
        words = ["channel", kind, self.one_of("1", "2", "3", "64", "0", "16384"), "schedule"]
        words += self.options(("finish",), ("base", "0", "64", "65536", "2"), ("stride", "32", "400", "8"))
        if kind == "own":
            words += ["--sender", self.a_ring(), "--receiver", self.a_ring()]
        files = {"schedule": self.whole_or_changed("ztso-schedule 1\n" + events, 6).encode()}
        return Question("channel", [*words, *self.buffer()], lists.encode(), files)

    def a_ring(self):
        return str(self.one_of(*RINGS).relative_to(ROOT))

    def ring(self):
        lists, _ = self.lists()
        words = ["ring", self.a_ring(), self.a_ring(), self.one_of("1", "2", "3"), "--seed", str(self.random.randrange(100)),
                 "--runs", self.one_of("1", "10"), "--length", self.one_of("0", "100", "300")]
        options = self.options(("jobs", "1", "3"), ("skip", "5"), ("base", "64"), ("stride", "40", "9"))
        return Question("ring", [*words, *options, *self.buffer()], lists.encode())

    def callers(self):
        test = self.one_of(*self.called, *self.called, *self.tests)
        text = self.whole_or_changed(test.text, 2)
        words = ["--slots", self.one_of("2", "2", "2", "1", "3", "0"), "--base", self.one_of("1024", "1024", "1024", "16", "0", "2"),
                 "--seed", str(self.random.randrange(2**64)), "--runs", self.one_of("1", "20"), "--length", self.one_of("0", "60", "300")]
        options = self.options(("kind", "lamport", "cached", "fastforward", "own"), ("jobs", "1", "3", "65"), ("skip", "5"),
                               ("sender", "0", "1", "64"), ("receiver", "1", "0", "2"))
        return self.on_test("callers", "callers", [*words, *options, *self.buffer()], None, "", text)

    def steps(self):
        lines = [f"hart {' '.join(f'{self.word():08x}' for _ in range(self.random.randrange(1, 6)))}"
                 for _ in range(self.random.randrange(1, 4))]
        lines += [f"reg {self.random.randrange(4)} {self.random.randrange(32)} {self.random.randrange(2**32)}",
                  f"word {4 * self.random.randrange(6)} {self.random.randrange(2**32)}"]
        events = " ".join(f"{self.one_of('a', 'l')}{self.random.randrange(3)}" for _ in range(self.random.randrange(12)))
        text = self.whole_or_changed("\n".join([*lines, f"steps {events}", ""]))
        return Question("steps", ["steps", *self.buffer()], text.encode())

    def word(self):
        """A word that is often an instruction."""
        return self.random.randrange(2**25) << 7 | self.one_of(0x03, 0x0F, 0x13, 0x17, 0x23, 0x2F, 0x33, 0x37, 0x63, 0x6F,
                                                               0x67, 0x73, self.random.randrange(128))

    def assembly(self):
        lines = [self.one_of(*STATEMENTS).decode() for _ in range(self.random.randrange(1, 9))]
        text = "a:\n" + "\n".join(lines) + "\nc: ret\n"
        return Question("asm", ["asm"], self.whole_or_changed(text).encode())

    def words(self):
        words = [f"{self.word():08x}{self.one_of(' ', chr(10), ' ', chr(9))}" for _ in range(self.random.randrange(20))]
        return Question("dis", ["dis"], self.whole_or_changed("".join(words), 4).encode())

    def grammar(self):
        """One byte changed in a text of a grammar, as tests/hostile does it."""
        _, text, words, stdin = self.one_of(*self.grammars)
        at, byte = self.random.randrange(len(text)), self.random.randrange(len(texts.TELLING))
        text = text[:at] + texts.TELLING[byte:byte + 1] + text[at + 1:]
        if "text" in words:
            return Question("grammars", words, stdin or b"", {"text": text, **texts.WITNESSES})
        return Question("grammars", words, text)

    def words_of_a_command(self):
        """A run of each kind of command with its words damaged."""
        words, stdin, files = self.one_of(*self.kinds)
        words = list(words)
        for _ in range(self.random.randrange(3)):
            at = self.random.randrange(len(words) + 1)
            new = self.one_of("--buffer", "4", "--svg", "--", "-", "", "--help", "--states=7", "--buffer=1", "--jobs", "-h", "9" * 30)
            words[at:at + self.random.randrange(2)] = self.one_of([], [new])
        return Question("command lines", words, stdin, files)

    def threads(self):
        test = self.one_of(*self.tests)
        options = ["--turns", self.one_of("0", "3", "100"), *self.buffer()]
        return self.on_test("threads", "threads", options, None, "", self.whole_or_changed(test.text, 6))


