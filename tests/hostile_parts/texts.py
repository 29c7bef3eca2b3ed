"""Texts of each grammar that are cut at every byte, or have one byte changed."""

import re

from witnesses import witnesses

from . import ROOT, examples

TELLING = b"\0\t\n\r\x0b\x0c !\"#$'()*+,-./0159:;<=>?@AFPRX[\\]_`abflsxz{|}~\x7f\x80\xbf\xc3\xff"
# of a text's changes that many are drawn
DRAWN, DRAWN_SHORT = 1400, 12


# tests of the shelf by the name of a schedule that goes with each
SHELF = {f"{name}.schedule": next(ROOT.glob(f"litmus/*/{name}.litmus")) for name in ("sb", "ticket", "n6")}
WITNESSES = {name: next(iter(witnesses(test).values())).encode() for name, test in SHELF.items()}


def read(name):
    return (ROOT / name).read_bytes()


def grammars():
    """The texts of each grammar: its name, a text, the words of a command that reads it, and standard input. The words
    name the text's file `text` where it isn't standard input."""
    for name, test in SHELF.items():
        yield "litmus", test.read_bytes(), ["run", "text", name], None
    yield "litmus", read("examples/message-passing.litmus"), ["run", "text", str(ROOT / "examples/message-passing.schedule")], None
    for name, test in ((examples.WITNESS, examples.SB),
                       ("examples/message-passing.schedule", "examples/message-passing.litmus")):
        yield "schedules", read(name), ["replay", str(ROOT / test), "text"], None
    yield "schedules", read("examples/two-senders.schedule"), ["channel", "lamport", "3", "text"], examples.LISTS
    text = b"ztso-schedule 1\r\na0*1000\ta1 l063*03\r\nl1\n"
    yield "schedules", text, ["channel", "fastforward", "3", "text"], b"7\n"
    for command in ("replay", "move", "run"):
        yield "records", examples.RECORD, [command, str(ROOT / examples.SB), "text"], None
    yield "records", examples.CHANNEL_RECORD, ["channel", "lamport", "2", "text"], b"\n"
    for text in (examples.LONG, examples.RECORD):
        yield "shrunk", text, ["shrink", str(ROOT / examples.SB), "text"], None
    for text in (read("examples/store-buffering.steps"), examples.STEPS):
        yield "steps", text, ["steps"], text
    schedule = str(ROOT / "examples/two-senders.schedule")
    for text in (examples.LISTS, b"4294967295  007\r\n\n 8 \n", b"1 2 3\n" * 5):
        yield "lists", text, ["channel", "lamport", "3", schedule], text
        yield "lists", text, ["channel", "fastforward", "3", schedule, "--finish"], text
    sum_ = read("examples/sum.asm")
    for text in (sum_, examples.FORMS, b"loop: addi x5,x5,-1\nbnez x5,loop\n"):
        yield "assembly", text, ["asm"], text
    # no event is drawn, so what is cut off changes whether the text is read and nothing else
    drawn = ["2", "--seed", "1", "--runs", "2", "--length", "0"]
    sender, receiver = (str(ROOT / name) for name in (examples.RING_SENDER, examples.RING_RECEIVER))
    for text, words in ((sum_, ["text", receiver]), (b"loop: addi x5,x5,-1\nbnez x5,loop\n", [sender, "text"])):
        yield "assembly", text, ["ring", *words, *drawn], b"7\n"
    yield "words", examples.WORDS, ["dis"], examples.WORDS
    files = [str(ROOT / examples.SB), str(ROOT / examples.WITNESS)]
    typed = "".join(f"{line}\n" for line in re.findall(
        r"^> (.*)$", (ROOT / "docs/debugging.md").read_text(), re.MULTILINE)).encode()
    for text in (examples.COMMANDS, typed):
        yield "debugger lines", text, ["debug", *files], text


def callers():
    """Texts that `callers` reads, whose grammar is that of `run`."""
    for name, kind in ((examples.CALLERS, "lamport"), ("examples/callers/cached.litmus", "cached"),
                       ("examples/callers/wrong/sends-0.litmus", "fastforward")):
        drawn = ["--base", "1024", "--slots", "2", "--seed", "1", "--runs", "2", "--length", "100", "--kind", kind]
        yield "callers", read(name), ["callers", "text", *drawn], None


NAMES = ["litmus", "callers", "schedules", "records", "shrunk", "steps", "lists", "assembly", "words", "debugger lines"]


def hold(runs, grammar, text, words, stdin):
    """Holds the program against the reference on a text, which is a file where the words name it."""
    if "text" in words:
        runs.put({"text": text, **WITNESSES})
        wanted = runs.compare(grammar, words, stdin or b"")
    else:
        wanted = runs.compare(grammar, words, text)
    runs.came[f"{grammar} refused"] += wanted[0] == 2


def count(runs, title):
    for grammar in NAMES:
        refused = runs.came.pop(f"{grammar} refused", 0)
        runs.counts(f"{title}, {refused} of them refused", [grammar])


def cut(runs):
    runs.side_by_side(hold, ((grammar, text[:end], words, stdin) for grammar, text, words, stdin in grammars()
                             for end in range(len(text), -1, -1)))
    count(runs, "cut texts")


def changed(runs):
    runs.side_by_side(hold, changes(runs))
    count(runs, "changed texts")


def changes(runs):
    """Texts with one byte changed, so many of each as are drawn."""
    for grammar, text, words, stdin in (*grammars(), *callers()):
        every = len(text) * len(TELLING)
        most = DRAWN_SHORT if runs.short else DRAWN
        drawn = range(every) if every <= most else runs.draw.sample(range(every), most)
        for number in drawn:
            at, byte = divmod(number, len(TELLING))
            yield grammar, text[:at] + TELLING[byte:byte + 1] + text[at + 1:], words, stdin
