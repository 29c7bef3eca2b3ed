"""Answers of the scripts of the page without a server, beside those of the server: the same to each question. The scripts
run under Node.js, or in a browser (hosted.py), and the program is a native one or ztso.wasm."""

import json
import random
import shutil
import subprocess
import tempfile
from pathlib import Path

from bring_parts import REFERENCE
from page_parts import ROOT, folder
from page_trials import texts
from page_trials.served import LOOP, SB, Served

NODE = Path(__file__).resolve().parent / "answering.mjs"
# the short part asks each so many-th question of the long lists
PART = 9
DAMAGED = 400
HOSTILE = (texts.EVIL, texts.LONG, texts.MANY, LOOP, "", "\0" * 1000, "RISCV \ud800", "x" * ((1 << 20) + 1),
           "RISCV a\n(* never closed")
CELLS = ("lq x7,0(x8)", "lw x7", "lw x99,0(x8)", "lw x7,4096(x8)", "addi x5,x5,2048", "addi x5,x5,y", "j nowhere",
         "sw x5,0x6", "lw (* a word *) x7,9999(x8)", "fence rw", "beq x5,x6,3", "lui x5,1048576", "amoswap.w x5,x6", "|")
# a line of answers.js, and a wrong one in its place
PLANTED = "pc: Number(rest[2])", "pc: Number(rest[2]) + 4"


def part(count, program):
    """The short part under Node.js over the program, where node is there."""
    program = Path(program).resolve() if program else REFERENCE
    if program == REFERENCE or not shutil.which("node"):
        print(f"  same: not tried, since {'the reference is too slow' if program == REFERENCE else 'there is no node'}")
        return
    known = served_answers(program, PART)
    with Node(program=program) as node:
        compare(count, "node", known, node.ask)
    with Node(program=program, planted=PLANTED) as node:
        wrong = differences({key: known[key] for key in list(known)[:30]}, node.ask)
    count.told("a planted difference is found", wrong)


def whole(count, program, made):
    """All questions under Node.js over the ztso.wasm of a folder that scripts/static-page made."""
    known = served_answers(program, 1)
    with Node(made=made) as node:
        compare(count, "node with ztso.wasm", known, node.ask)


def served_answers(program, step):
    """The server's answers, by their questions."""
    served = Served(program)
    try:
        return {(route, json.dumps(body)): served.ask(route, **body)[1]
                for route, body in questions(served.shelf()["tests"], step)}
    finally:
        served.end()


class Node:
    """The scripts under Node.js: those of a folder that was made, or these here over a native program."""

    def __init__(self, made=None, program=None, planted=None):
        self.folder = tempfile.TemporaryDirectory(prefix="ztso-page-")
        here = Path(self.folder.name)
        for source in (made,) if made else (folder.SITE, folder.STATIC):
            shutil.copytree(source, here, dirs_exist_ok=True)
        if not made:
            (here / "known.json").write_text(json.dumps(folder.known()))
        if planted:
            folder.replace(here / "answers.js", dict([planted]))
        (here / "package.json").write_text('{"type": "module"}')
        words = ["node", NODE, here] if made else ["node", NODE, here, Path(program).resolve()]
        self.process = subprocess.Popen(words, stdin=subprocess.PIPE, stdout=subprocess.PIPE, text=True)

    def ask(self, route, **body):
        self.process.stdin.write(json.dumps({"route": route, "body": body}) + "\n")
        self.process.stdin.flush()
        return 200, json.loads(self.process.stdout.readline())

    def __enter__(self):
        return self

    def __exit__(self, *_):
        self.process.stdin.close()
        self.process.wait(60)
        self.process.stdout.close()
        self.folder.cleanup()


def compare(count, name, known, ask):
    wrong = differences(known, ask)
    for one in wrong[:3]:
        print("  differs:", *(json.dumps(part)[:300] for part in one), sep="\n    ")
    faults = sum("fault" in answer for answer in known.values())
    print(f"  same: {len(known)} answers, {faults} of them refusals, of {name}", flush=True)
    count.told(f"the answers of {name} are the server's", not wrong and faults > len(known) / 20, f"{len(wrong)} differ")


def differences(known, ask):
    """The questions that are answered otherwise, with both answers."""
    wrong = []
    for (route, body), answer in known.items():
        other = ask(route, **json.loads(body))[1]
        if other != answer:
            wrong.append((route, body, answer, other))
    return wrong


def questions(tests, step):
    """Questions about the shelf, compiled code, hostile and damaged texts; each step-th of a long list."""
    draw = random.Random(5)
    shelf = [one["text"] for one in tests]
    compiled = [path.read_text() for path in sorted((ROOT / "examples/c").glob("*.litmus"))[:6]]
    for text in (*(shelf + compiled)[::step], *HOSTILE):
        yield from about(text, draw)
    yield from (("find", {"text": text, "buffer": 4}) for text in shelf[::step])
    yield from openings()
    yield from refused()
    for _ in range(DAMAGED // step):
        text = draw.choice(shelf)
        at = draw.randrange(len(text))
        other = draw.choice(("", text[at] * 2, draw.choice("(*)|;:=x09 \n\t,é&{}~\x1c\u2028")))
        yield "test", {"text": text[:at] + other + text[at + 1:]}


def about(text, draw):
    """Each question about a text."""
    yield "test", {"text": text}
    for how in ("uniform", "bursts"):
        yield "draw", {"text": text, "buffer": 4, "draw": how, "seed": "7", "skip": 3, "runs": 40, "length": 80}
    harts = text.split(";\n")[0].count("|") + 1
    tokens = " ".join(f"{draw.choice('aaal')}{draw.randrange(min(harts, 4))}" for _ in range(25))
    run = {"text": text, "buffer": draw.choice((1, 2, 4, 16)), "tokens": tokens}
    for route, more in (("view", {}), ("chart", {"rows": "all"}), ("chart", {"rows": "memory"}), ("shrink", {}),
                        ("verdict", {}), ("onward", {"hart": 0}), ("seek", {"place": 3, "breaks": [[0, 4], [1, 8]]})):
        yield route, run | more
    yield "view", run | {"tokens": ""}
    yield "read", {"text": text, "buffer": 4, "schedule": f"ztso-schedule 1\n{tokens}\n"}


def openings():
    """Each name of a register that opens as an address."""
    names = [*(f"x{n}" for n in range(32)), "zero", "ra", "sp", "gp", "tp", "fp",
             *(f"{letter}{n}" for letter, most in (("t", 7), ("s", 12), ("a", 8)) for n in range(most))]
    for name in names:
        yield "test", {"text": SB.replace("0:x6=x;", f"0:x6=x; 1:{name}=y;").replace("1:x6=y; ", "")}
    for hart in ("00", "01", "64", "0" * 5000, "9" * 5000):
        yield "test", {"text": SB.replace("0:x6=x;", f"{hart}:x6=x;")}


def refused():
    """Cells that are refused for their own sake, schedules, seeds, events past the limit, and harts that stop."""
    for cell in CELLS:
        yield "test", {"text": SB.replace("lw x7,0(x8) ;", f"{cell} ;")}
    for head in ("ztso-schedule 1\n", "ztso-schedule 2\n", "ztso-schedule 3\n", ""):
        for tokens in ("a0 b1", "a0*0", "a99", "a0 a1*2001", "a0 load 0 0 0", "a0 store 0 0 1\n", "l0 l1"):
            yield "read", {"text": SB, "buffer": 4, "schedule": head + tokens}
    for seed in ("-1", "18446744073709551616", "18446744073709551615"):
        yield "draw", {"text": SB, "buffer": 4, "draw": "uniform", "seed": seed, "skip": 0, "runs": 10, "length": 60}
    yield "view", {"text": SB, "buffer": 4, "tokens": "a0*2000 a1"}
    for address in ("3", "1", "4294967292", "0", "2147483648"):
        yield "view", {"text": SB.replace("0:x6=x;", f"0:x6={address};"), "buffer": 4, "tokens": "a0*3 a1*3 l0 l1"}
