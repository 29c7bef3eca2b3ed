"""The page's questions, each answered by commands of the program. What the program printed is taken apart here, and
put into words by the page. static/answers.js does the same where there is no server, and tests/page-server holds both
together."""

import itertools
import re

from page_parts import bringing, faults
from page_parts.calls import SECONDS, Late
from page_parts.faults import Fault
from page_parts.listing import faulty_cell, listed
from page_parts.programs import REFERENCE
from page_parts.questions import BREAKS, EVENTS, HARTS, ONWARD, ROWS, too_long

HEAD = "ztso-schedule 1\n"
# what `find` says where it has no schedule
NOT_FOUND = re.compile(r"ztso: (all|cut at) ([0-9]+) states(?: seen, none shows it)?")


def printed(calls, command, asked, *options, schedule=None, typed=""):
    """What a command printed on the test that is asked about, and its status."""
    buffer = ("--buffer", str(asked["buffer"])) if "buffer" in asked else ()
    status, out, err = calls.ztso(command, *options, *buffer, text=asked["text"], schedule=schedule, typed=typed)
    if err or status > 1:
        raise faults.of_line(err or f"status {status}")
    return out, status


def printed_of_run(calls, command, asked, *options, typed=""):
    """What a command printed on the run that is asked about."""
    return printed(calls, command, asked, *options, schedule=f"{HEAD}{asked['tokens']}\n", typed=typed)[0]


def tokens_of(schedule):
    """The tokens of a schedule's text as the program writes it."""
    return schedule.partition("\n")[2].strip()


def counted(tokens):
    """How many events tokens are."""
    return sum(int(count or 1) for count in re.findall(r"[al][0-9]+(?:\*([0-9]+))?", tokens))


def moved(text):
    """Each event of a record with its outcome; equal ones that follow one another are a line of it."""
    for line in text.splitlines()[1:]:
        token, _, outcome = line.partition(" ")
        event, _, count = token.partition("*")
        yield from itertools.repeat((event, outcome), int(count or 1))


def test(calls, asked):
    """What a test is, or the fault of its text."""
    try:
        return listed(shown(calls, asked), asked["text"])
    except Fault as fault:
        if fault.said["name"] == "BadInstr":
            fault.said["cell"] = faulty_cell(lambda cell: calls.ztso("asm", typed=cell)[2], asked["text"], fault.said["place"]["line"])
        raise


def shown(calls, asked):
    """What `show` prints of a test. For a program that doesn't have it, which then judges the text by a run of no
    events, tools/reference prints it."""
    if "show" in calls.can:
        return printed(calls, "show", asked)[0]
    printed(calls, "run", asked, schedule=HEAD)
    status, out, err = calls.run([str(REFERENCE), "show"], {"test.litmus": asked["text"]})
    if status:
        raise faults.of_line(err)
    return out


def view(calls, asked):
    """The state after these events, what each of them did, and what each hart's next event would do."""
    harts, words, verdict = state_of(printed_of_run(calls, "run", asked))
    # an empty line is answered by `?`, so it ends each answer
    typed = "g\n\n" + "".join(f"p {h}\n\na {h}\nu 1\n\nl {h}\nu 1\n\n" for h in range(len(harts)))
    out = printed_of_run(calls, "debug", asked, typed=typed)
    outcomes, *rest = [part.splitlines() for part in out.removesuffix("?\n").split("?\n")]
    for hart, (pending, act, land) in zip(harts, zip(*[iter(rest)] * 3)):
        hart |= {"pending": [store_of(line) for line in pending], "act": act[0], "land": land[0]}
        if hart["stop"] is not None:
            hart["stopped"] = faults.of_stop(hart["stop"])
    return {"harts": harts, "words": words, "outcomes": outcomes[:-1], "verdict": verdict}


def state_of(text):
    """The harts, the words and the verdict that `run` printed."""
    harts, words = [], {}
    *lines, verdict = text.splitlines()
    for line in lines:
        name, number, *rest = line.replace(" = ", " ").split(" ")
        if name == "hart":
            stop = int(rest.pop(1)) if rest[0] == "stopped" else None
            harts.append({"status": rest[0], "stop": stop, "pc": int(rest[2]), "registers": {}})
        elif name == "word":
            words[int(number)] = int(rest[0])
        else:
            harts[-1]["registers"][int(name[1:])] = int(number)
    return harts, words, verdict


def store_of(line):
    """A pending store, as `p H` prints it."""
    address, value, width = (*map(int, line.split(" ")), 4)[:3]
    return {"address": address, "value": value, "bytes": width}


def chart(calls, asked):
    """The picture of a run, and each event's outcome: an event that did nothing has no row."""
    outcomes = [outcome for _, outcome in moved(printed_of_run(calls, "move", asked))]
    form, options = ("svg", ["--svg"]) if "svg" in calls.can else ("text", [])
    if asked["rows"] == "memory":
        options = [*options, "--memory"]
    return {form: printed_of_run(calls, "chart", asked, *options), "outcomes": outcomes}


def shrink(calls, asked):
    """A schedule with the same outcome, from which no event can be left out."""
    return {"tokens": tokens_of(printed_of_run(calls, "shrink", asked))}


def verdict(calls, asked):
    """The verdict on a run."""
    return {"verdict": printed_of_run(calls, "run", asked).splitlines()[-1]}


def onward(calls, asked):
    """How many acts of a hart go on to its next access of memory: one, and the ones after it that touch none."""
    hart = asked["hart"]
    out = printed_of_run(calls, "debug", asked, typed="g\n\n" + f"a {hart}\n" * ONWARD)
    after = out.partition("?\n")[2].splitlines()[1:]
    inner = itertools.takewhile(lambda line: line.startswith("inner "), after)
    return {"count": min(1 + sum(1 for _ in inner), EVENTS - counted(asked["tokens"]))}


def seek(calls, asked):
    """How many events are done where a breakpoint stops the schedule, from a place on, or all of them."""
    typed = "s\n" * asked["place"] + "".join(f"b {hart} {pc}\n" for hart, pc in asked["breaks"][:BREAKS]) + "g\nt\n"
    return {"place": int(printed_of_run(calls, "debug", asked, typed=typed).splitlines()[-1])}


def read(calls, asked):
    """The events of a schedule's text of either version, checked by the program."""
    out, _ = printed(calls, "move", asked, schedule=asked["schedule"])
    events = [event for event, _ in moved(out)]
    if len(events) > EVENTS:
        raise too_long(len(events))
    return {"events": events}


def draw(calls, asked):
    """The outcomes of a part of a seed's runs. `left` runs had outcomes that aren't listed; `first` has the tokens of the
    first run that didn't finish, or nothing."""
    out, status = printed(calls, "try", asked, "--seed", asked["seed"], "--runs", str(asked["runs"]),
                          "--length", str(asked["length"]), "--skip", str(asked["skip"]), "--draw", asked["draw"], "--unfinished")
    *lines, last = out.splitlines()
    last, semicolon, first = last.partition(" ;")
    rows = []
    for line in lines:
        said, _, tokens = line.partition(" ;")
        count, *values = said.split(" ")
        rows.append({"count": int(count), "values": values, "tokens": tokens.strip()})
    return {"rows": rows[:ROWS], "left": sum(row["count"] for row in rows[ROWS:]),
            "unfinished": int(last.split(" ")[1]), "first": first.strip() if semicolon else None, "shown": status == 0}


def threads(calls, asked):
    """The schedule that threads of the system made: a finished run, or of a loop that is too long a part."""
    for turns in ((), ("--turns", str(EVENTS // HARTS))):
        out, _ = printed(calls, "threads", asked, *turns)
        tokens = tokens_of(out[:out.index("hart 0 ")])
        if counted(tokens) <= EVENTS:
            return {"tokens": tokens}
    raise too_long(counted(tokens))


def find(calls, asked):
    """The shortest schedule of what the condition asks about, or how many states were seen without it."""
    try:
        out, _ = printed(calls, "find", asked)
    except Late:
        raise Fault("Late", [f"The search took more than {SECONDS} seconds and was ended. The command `find` has no "
                             "such limit."]) from None
    except Fault as fault:
        unfound = NOT_FOUND.fullmatch(fault.said["line"])
        if not unfound:
            raise
        return {"states": int(unfound[2]), "cut": unfound[1] == "cut at"}
    if counted(tokens_of(out)) > EVENTS:
        raise too_long(counted(tokens_of(out)))
    return {"tokens": tokens_of(out)}


ANSWERS = {"test": test, "herd": bringing.of_herd, "c": bringing.of_c, "view": view, "chart": chart, "shrink": shrink,
           "verdict": verdict, "onward": onward, "seek": seek, "read": read, "draw": draw}
# questions for which a program needs a command that not each of them has
IF_IT_CAN = {"threads": threads, "find": find}
