"""What the page takes at most, hostile texts, and children that are killed or that nobody waits for."""

import http.client
import json
import os
import re
import signal
import socket
import subprocess
import tempfile
import threading
import time
from pathlib import Path
from types import SimpleNamespace

from bring_parts import REFERENCE
from page_parts.calls import MEMORY, OUTPUT, Calls, Failed
from page_trials.served import LOOP, SB, Served

RUN = {"text": SB, "buffer": 4}
# harts that count until another one stores: far more outcomes than are listed
COUNTS = """RISCV counts
{ 0:x6=x; 1:x6=x; 2:x5=150; 2:x6=x; }
 P0               | P1               | P2              ;
 again:           | again:           | again:          ;
 addi x5,x5,1     | addi x5,x5,1     | addi x5,x5,-1   ;
 lw x7,0(x6)      | lw x7,0(x6)      | bne x5,x0,again ;
 beq x7,x0,again  | beq x7,x0,again  | sw x6,4(x6)     ;
                  |                  | addi x5,x0,1    ;
                  |                  | sw x5,0(x6)     ;
exists (0:x5=1 /\\ 1:x5=1)
"""
NOPS = "RISCV nops\n{ 0:x6=x; }\n P0 ;\n nop ;\n nop ;\n nop ;\n sw x5,0(x6) ;\nexists (x=0)\n"
LONG = {"text": LOOP, "buffer": 4, "draw": "uniform", "seed": "1", "skip": 0, "runs": 100000, "length": 2000}


def part(count, program):
    outputs(count)
    served = Served(program)
    try:
        texts(count, served)
        schedules(count, served)
        draws(count, served)
        children(count, served)
    finally:
        ends(count, served)


def outputs(count):
    """A child's answer comes in pieces, and is refused where all of them are longer than it may be."""
    ours, theirs = socket.socketpair()
    with tempfile.TemporaryDirectory() as folder, ours, theirs:
        child = Path(folder, "child")
        for more, wanted in ((0, OUTPUT), (1, "the program's answer is too long for the page")):
            child.write_text(f"#!/bin/sh\nhead -c {OUTPUT + more} /dev/zero\n")
            child.chmod(0o755)
            try:
                came = len(Calls(SimpleNamespace(can=None)).of(ours).run([str(child)], {})[1])
            except Failed as failed:
                came = str(failed)
            count.told(f"{OUTPUT + more} bytes of output", came == wanted, came)


def texts(count, served):
    rows = " nop | nop ;\n"
    table = SB.replace(" sw x5,0(x6)", rows * 90000 + " sw x5,0(x6)")[:(1 << 20) - 9] + "\n x | x ;"
    head = " P0          | P1          ;\n"
    for name, number, text in (
            ("1 MiB and a byte", 37, "x" * (1 << 20) + "x"), ("1 MiB of one line", 21, "x" * (1 << 20)),
            ("half a surrogate pair", 36, "RISCV \ud800"), ("1 MiB of table", 26, table), ("an empty text", 21, ""),
            ("a text of zeros", 21, "\0" * 1000), ("a wrong cell", 24, SB.replace("lw x7,0(x8) ;", "lq x7,0(x8) ;"))):
        status, answer = served.ask("test", text=text)
        found = answer.get("fault", {})
        count.told(f"{name}: {number}", status == 200 and found.get("number") == number, answer)
    cell = found["cell"]
    good = cell["hart"] == 1 and cell["words"] and found["place"] == {"line": 9}
    count.told("the cell that is wrong is named", good, found)
    answer = served.ask("test", text=SB.replace("0:x6=x;", f"{'0' * 5000}0:x6=x;"))[1]
    good = answer.get("harts", [{"pointers": {}}])[0]["pointers"].get("6") == "x" or answer.get("fault", {}).get("number")
    count.told("a hart's number of 5,000 digits", good, answer)
    answer = served.ask("test", text=SB.replace(head, head + rows * 2048))[1]
    count.told("more code than the page shows", answer.get("fault", {}).get("name") == "TooLong", answer)


def schedules(count, served):
    status, answer = served.ask("view", **RUN, tokens="a0*2000")
    count.told("2,000 events", status == 200 and len(answer.get("outcomes", [])) == 2000)
    pending = served.ask("view", **RUN, tokens="a1")[1]["harts"][1]["pending"]
    count.told("a pending store by its place, its value and its bytes", pending == [{"address": 4, "value": 1, "bytes": 4}], pending)
    for name, route, more in (("2,001 events", "view", {"tokens": "a0*2000 a1"}),
                              ("2,001 events to read", "read", {"schedule": "ztso-schedule 1\na0*2001\n"})):
        answer = served.ask(route, **RUN, **more)[1]
        count.told(name, answer.get("fault", {}).get("name") == "TooLong", answer)
    answer = served.ask("read", **RUN, schedule="ztso-schedule 1\na0*1000 l1 a1*999\n")[1]
    count.told("just 2,000 events to read", len(answer.get("events", [])) == 2000, answer)
    for tokens, wanted in (("l0*1996", 3), ("l0*1999", 1), ("l0*1997 a0", 2), ("l0*2000", 0)):
        answer = served.ask("onward", text=NOPS, buffer=4, tokens=tokens, hart=0)[1]
        count.told(f"an act goes on after {tokens} as far as the limit", answer == {"count": wanted}, answer)
    answer = served.ask("seek", **RUN, tokens="l0*2000", place=2000, breaks=[[0, 0]])[1]
    count.told("the end of just 2,000 events", answer == {"place": 2000}, answer)
    answer = served.ask("read", **RUN, schedule="ztso-schedule 1\na0 b1")[1].get("fault", {})
    count.told("a wrong token", answer.get("number") == 28 and answer["place"] == {"byte": 19}, answer)
    answer = served.ask("read", **RUN, schedule="ztso-schedule 2\na0 load 0 0 0\n")[1].get("fault", {})
    count.told("a record of another run", answer.get("number") == 38 and answer["place"] == {"event": 0}, answer)


def draws(count, served):
    """Just what may be drawn, and one more; and runs whose outcomes aren't listed."""
    ask = {**RUN, "draw": "uniform", "seed": "1", "skip": 0, "runs": 3, "length": 20}
    for more, status in (({"skip": 100000}, 200), ({"skip": 100001}, 400), ({"length": 2000}, 200), ({"length": 2001}, 400),
                         ({"runs": 100001}, 400), ({"runs": 0}, 400), ({"seed": "18446744073709551615"}, 200),
                         ({"draw": "bursts", "length": 60}, 200), ({"draw": "burst"}, 400)):
        got, answer = served.ask("draw", **ask | more)
        count.told(f"a draw with {more}", got == status, answer)
        if got == 200:
            wanted = by_reference("try", SB, "--unfinished", *(f"--{name}={value}" for name, value in {**ask, **more}.items()
                                                              if name in ("draw", "seed", "skip", "runs", "length")))
            made = [" ".join([str(row["count"]), *row["values"], ";", row["tokens"]]) for row in answer["rows"]]
            last = f"unfinished {answer['unfinished']}" + ("" if answer["first"] is None else f" ; {answer['first']}")
            count.told(f"which are the reference's, {more}", [*made, last] == wanted.splitlines(), answer)
    got, answer = served.ask("draw", text=COUNTS, buffer=4, draw="uniform", seed="1", skip=0, runs=6000, length=2000)
    listed, finished = sum(row["count"] for row in answer["rows"]), 6000 - answer["unfinished"]
    good = len(answer["rows"]) == 1000 and answer["left"] > 0 and listed + answer["left"] == finished
    count.told("runs whose outcomes aren't listed are counted", good, (len(answer["rows"]), listed, answer["left"], finished))


def by_reference(command, text, *options):
    """What the second implementation prints for a test."""
    with tempfile.NamedTemporaryFile("w", suffix=".litmus") as file:
        file.write(text)
        file.flush()
        return subprocess.run([REFERENCE, command, file.name, *options], capture_output=True, text=True, check=False).stdout


def started(served):
    """The children once there is one."""
    until = time.monotonic() + 20
    while not (found := served.children()) and time.monotonic() < until:
        time.sleep(0.01)
    return found


def gone(served):
    """Whether no child runs any more, and none starts, at most five seconds from now."""
    until, quiet = time.monotonic() + 5, 0
    while quiet < 30 and time.monotonic() < until:
        quiet = 0 if served.children() else quiet + 1
        time.sleep(0.01)
    return quiet == 30


def is_limited(pid):
    """Whether a child's memory is limited, which comes right after its start."""
    for _ in range(100):
        limits = Path(f"/proc/{pid}/limits").read_text()
        if re.search(rf"^Max address space +{MEMORY} ", limits, re.MULTILINE):
            return True
        time.sleep(0.01)
    return False


def runs_still(pid):
    """Whether a process runs: one that has ended may wait for whoever asks how."""
    try:
        return Path(f"/proc/{pid}/stat").read_text().rpartition(")")[2].split()[0] not in "ZX"
    except FileNotFoundError:
        return False


def children(count, served):
    got = []
    asking = threading.Thread(target=lambda: got.append(served.ask("draw", **LONG)))
    asking.start()
    for pid in started(served):
        os.kill(pid, signal.SIGKILL)
    asking.join(60)
    count.told("a killed child is told", bool(got) and got[0][0] == 503 and "signal 9" in got[0][1]["error"], got)
    count.told("and the next question is answered", served.ask("view", **RUN, tokens="")[0] == 200)

    body = json.dumps(LONG).encode()
    connection = http.client.HTTPConnection("127.0.0.1", served.port)
    connection.request("POST", served.own + "draw", body, {
        "Host": served.host, "Origin": f"http://{served.host}", "Content-Type": "application/json"})
    running = started(served)
    count.told("a child's memory is limited", running and is_limited(running[0]), running)
    connection.close()
    count.told("a child that nobody waits for ends", running and gone(served), running)


def ends(count, served):
    asking = threading.Thread(target=lambda: quietly(served.ask, "draw", **LONG))
    asking.start()
    running = started(served)
    count.told("a signal ends the server", served.end(signal.SIGTERM) == 0)
    time.sleep(0.2)
    count.told("and its children", running and not any(map(runs_still, running)), running)
    asking.join(10)


def quietly(call, *words, **members):
    """A call whose connection may be cut."""
    try:
        call(*words, **members)
    except (OSError, http.client.HTTPException, ValueError):
        pass
