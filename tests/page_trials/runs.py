"""Answers about runs: all witnesses of the shelf, parts of drawn runs, acts that go on, threads, and files that are
brought."""

import json
import random
import sys
from concurrent.futures import ThreadPoolExecutor

from page_parts import ROOT, TOOLS
from page_trials.served import LOOP, SB, Served

sys.path.insert(0, str(TOOLS / "reference"))

import litmus  # noqa: E402
from machine import Machine  # noqa: E402

RUN = {"text": SB, "buffer": 4}
MP = (ROOT / "litmus/message-passing/mp.litmus").read_text()
C = "#include <stdatomic.h>\natomic_int x;\nint P0(void) { atomic_store(&x, 1); return x; }\n// exists (0:a0=1)\n"


def part(count, program):
    served = Served(program)
    try:
        answers(count, served)
    finally:
        served.end()


def answers(count, served):
    known = served.shelf()
    witnesses(count, served, known["tests"])
    drawn(count, served)
    onward(count, served)
    others(count, served, known["can"])
    if known["can"]["herd"]:
        brought(count, served, known["can"]["c"])


def witnesses(count, served, tests):
    """The page's reading of names and places, against the names of the witnesses."""
    with ThreadPoolExecutor(4) as pool:
        wrong = [name for names in pool.map(lambda test: strangers(served, test), tests) for name in names]
    ran = sum(len(test["witnesses"]) for test in tests)
    count.told(f"{ran} witnesses end as their names say", ran > 300 and not wrong, wrong)


def strangers(served, test):
    """The witnesses of a test that don't end as their names say."""
    listed, wrong = served.ask("test", text=test["text"])[1], []
    for outcome, tokens in test["witnesses"]:
        view = served.ask("view", text=test["text"], buffer=4, tokens=tokens)[1]
        if outcome != values(listed, view) or view["verdict"] == "Unfinished" or not at_ends(listed, view):
            wrong.append(f"{test['name']}/{outcome}")
    return wrong


def values(listed, view):
    def value(kind, *place):
        return view["harts"][place[0]]["registers"].get(str(place[1]), 0) if kind == "register" \
            else view["words"].get(str(place[0]), 0)
    return "-".join(str(value(*left["place"])) for left in listed["lefts"])


def at_ends(listed, view):
    return all(hart["pc"] == 4 * len(of["rows"]) for hart, of in zip(view["harts"], listed["harts"]) if hart["status"] == "ended")


def drawn(count, served):
    def rows(skip, runs):
        answer = served.ask("draw", **RUN, draw="uniform", seed="1", skip=skip, runs=runs, length=60)[1]
        return {tuple(row["values"]): row["count"] for row in answer["rows"]}, answer
    whole, answer = rows(0, 300)
    parts = [rows(skip, 100)[0] for skip in (0, 100, 200)]
    count.told("parts of drawn runs are the whole", whole == {key: sum(part.get(key, 0) for part in parts) for key in whole})
    count.told("store buffering is drawn", len(whole) == 4 and answer["shown"], answer)


def onward(count, served):
    """Acts that go on, against the reference's machine, in compiled code."""
    text = (ROOT / "examples/c/dekker.gcc.litmus").read_text()
    machine, draw, wrong = Machine(litmus.read(text), 4), random.Random(1), []
    state, events = machine.opening, []
    while len(wrong) == 0 and len(events) < 60:
        hart = draw.randrange(2)
        expected, ahead = 0, state
        while expected == 0 or kind == "inner":
            expected, ahead = expected + 1, machine.step(ahead, ("a", hart))[2]
            kind = machine.step(ahead, ("a", hart))[0].split(" ")[0]
        got = served.ask("onward", text=text, buffer=4, tokens=" ".join(events), hart=hart)[1]
        if got != {"count": expected}:
            wrong.append((events, hart, got, expected))
        events, state = [*events, *[f"a{hart}"] * expected], ahead
    count.told("an act goes on to the next memory access", not wrong, wrong)


def others(count, served, can):
    answer = served.ask("read", **RUN, schedule="ztso-schedule 2\na0 store 0 0 1\na1 store 1 4 1\nl0 land 0\n")[1]
    count.told("a record is read", answer == {"events": ["a0", "a1", "l0"]}, answer)
    answer = served.ask("shrink", **RUN, tokens="l0 a0 a1*2 l1 a0*3 l1 l0 a1")[1]
    count.told("a schedule is shrunk", answer == {"tokens": "a0 a1*2 l1 a0 l0"}, answer)
    answer = served.ask("seek", **RUN, tokens="a0*2 a1*2 l0 l1", place=0, breaks=[[1, 4]])[1]
    count.told("a breakpoint is sought", answer == {"place": 3}, answer)
    charts(count, served, can)
    if can["threads"]:
        tokens = served.ask("threads", **RUN)[1]["tokens"]
        answer = served.ask("verdict", **RUN, tokens=tokens)[1]
        count.told("threads make a run that is finished", answer["verdict"] in ("Holds", "Fails"), answer)
        answer = served.ask("threads", text=LOOP, buffer=4)[1]
        count.told("of a loop they make a part", "tokens" in answer, answer)
    status, content, _ = served.request("POST", served.own + "find", RUN)
    count.told("find is there where the program has it", (status == 200) == can["find"], status)
    if can["find"]:
        answer = served.ask("verdict", **RUN, tokens=json.loads(content)["tokens"])[1]
        count.told("what it finds is what was asked", answer["verdict"] == "Holds", answer)
        answer = served.ask("find", text=MP, buffer=4)[1]
        count.told("or how many states have none", answer.get("states", 0) > 1, answer)


def charts(count, served, can):
    def drawn_of(rows, **run):
        answer = served.ask("chart", **run, rows=rows)[1]
        return answer.get("svg", answer.get("text", "")), answer.get("outcomes")
    picture, outcomes = drawn_of("all", **RUN, tokens="a0*2 a1*2 l0*3 l1 l1")
    count.told("a run is drawn, with an outcome for each event", "sw x5,0(x6)" in picture and len(outcomes) == 9, outcomes)
    if can["memory"]:
        run = {"text": SB.replace(" sw x5,0(x6) | ", " nop | nop ;\n sw x5,0(x6) | "), "buffer": 4, "tokens": "a0*2 l0"}
        both = [drawn_of(rows, **run)[0] for rows in ("all", "memory")]
        count.told("and without rows that touch no memory", ["addi x0,x0,0" in one for one in both] == [True, False], both)


def brought(count, served, compilers):
    text = (ROOT / "examples/herd/MP+doubles.litmus").read_text()
    status, answer = served.ask("herd", text=text)
    count.told("a text of herd's is rewritten or refused", status == 200 and ("fault" in answer or answer["notes"]), answer)
    answer = served.ask("herd", text=SB)[1]
    count.told("a text of ours stays as it is", answer == {"text": SB, "notes": []}, answer)
    for compiler in compilers:
        answer = served.ask("c", text=C, compiler=compiler, fences="none", mapping="")[1]
        listed = served.ask("test", text=answer.get("text", ""))[1]
        count.told(f"C by {compiler}", listed.get("condition", "").startswith("exists"), answer)
    if compilers:
        fault = served.ask("c", text="int P0(void) { return y; }\n// exists (0:a0=1)\n", compiler=compilers[0],
                           fences="all", mapping="")[1].get("fault", {"words": [""]})
        count.told("C that is refused, without a path", "y" in fault["words"][0] and "/tmp" not in fault["words"][0], fault)
