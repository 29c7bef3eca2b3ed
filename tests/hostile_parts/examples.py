"""The worked examples: sessions of docs/ and README, and a run of each kind of command."""

import re

from kit import pages
from ring_kinds import RINGS
from witnesses import witnesses

from . import ROOT

PAGES = [ROOT / "README.md", *sorted((ROOT / "docs").glob("*.md"))]
# what makes a call of a page a long one, of which it doesn't show what is printed
LONG_CALL = "100000"
SB = "litmus/store-buffering/sb.litmus"
WITNESS = "examples/store-buffering.schedule"
TICKET = "litmus/mutual-exclusion/ticket.litmus"
LISTS = (ROOT / "examples/two-senders.lists").read_bytes()
# each of the debugger's commands, each with an answer and with `?`
COMMANDS = b"""s
s
p 0
a 1
l 1
b 1 4
g
g
b 1 4
u 2
u 99999999999999999999
r 0
w 0
w 4
g
r 1
t
t 1
r 2
w 2
p 9
a 7
?
q
"""
# bytes, halfwords, AMOs, fences, branches, calls and stops
FORMS = b"""# each form once
a: lui x5,0x12345
 auipc x6,1048575
b: jal x1,a
 jalr x1,-4(x2)
 jalr x1,x2,2047
 beq x1,x2,c
 bge t0,t1,-4096
 lb a0,(sp)
 sw fp, -2048( s11 )
 sltiu x31,x30,-1
 srai x1,x2,31
 xor x1,x2,x3
 amoadd.w x1,x2,(x3)
 amomaxu.w.aq.rl x1,x2,0(x3)
 fence rw,0
 fence.tso
 fence
 ecall
c: ebreak # the end
 li x5,-2147483648
 li x6,0xFFF
 not x1,x2
 bnez x1,b
 ret
"""
WORDS = b"FE029EE3 00000000\n00532023\tfff28293\r\n1821a0af 0330000f\n 8330000f\n"
CALLERS = "examples/callers/lamport.litmus"
RING_SENDER, RING_RECEIVER = (f"examples/rings/lamport-{role}.asm" for role in ("sender", "receiver"))
# a schedule of version 2 of store buffering, with counts, blanks and all line ends, and one of a channel without words
RECORD = b"""ztso-schedule 2\r
a0 store 0 0 1
 a1\tstore  01 4 1

a0*001 load 0 4 0\r
a1 load 1 0 0
l0 land 0
l1 land 1
a0*1000 over 0
a63 nohart 63
"""
# a record of a finished run, one that differs, one that is not finished and a text that is no record
RECORDS = b"""ztso-schedule 2
a0 store 0 0 1
a0 load 0 4 0
a1 store 1 4 1
a1 load 1 0 0
l0 land 0
l1 land 1
ztso-schedule 2
a0 store 0 0 1

a0 load 0 4 1
ztso-schedule 2
a0 store 0 0 1
ztso-schedule 2
a0 store
"""
CHANNEL_RECORD = b"""ztso-schedule 2
a1 inner 1
a1 next 1 end
a1*2 inner 1
a1 store 1 4 1
a1 inner 1
a1 ended 1
l1 land 1
a0*2 inner 0
a0 load 0 12 0
a0 inner 0
a0 load 0 4 1
a0 load 0 0 0
a0 load 0 8 0
a0*3 inner 0
a0 store 0 12 1
a0*2 inner 0
a0 closed 0 0
a0*3 inner 0
a0 ended 0
"""
# the commands that write as they read
INTERACTIVE = ("debug", "check")
# more events than the outcome needs
LONG = b"ztso-schedule 1\nl0*3 a1 a0*2 a1*3 a0 l1*2 a1 l0 a1 l0 a1 l0 a1 l0\n"
STEPS = b"""hart 00532023 00042383\r
hart 0002a303 00000073

\treg 0 5 4294967295
reg 1 17 93
word 0012 7
steps a0*2 l0
steps
steps a1*3 l63
"""


def sessions():
    """The command lines of the pages that run the program: each with the files that the page shows before it, and
    standard error and output as the page has them. Those that need another tool are left out, and those that read what
    one wrote."""
    for page in PAGES:
        foreign = set()
        for _, number, lines in pages.blocks(page.read_text()):
            files = {}
            for command, _, answer in pages.commands(number, lines):
                while command.count("'") % 2:
                    command += "\n" + answer.pop(0)
                shown = re.fullmatch(r"cat (\S+)", command)
                made = re.fullmatch(r"echo '([^']*)' > (\S+)", command)
                written = re.search(r" (?:>|-o) (\S+)$", command)
                needs = "tools/" in command or LONG_CALL in command or any(name in command for name in foreign - files.keys())
                if shown and not (ROOT / shown[1]).exists():
                    files[shown[1]] = text_of(answer)
                elif made:
                    files[made[2]] = f"{made[1]}\n".encode()
                elif "./ztso" not in command or needs:
                    foreign |= {written[1]} if written else set()
                # the page shows bad.record without a command
                elif not command.startswith("./ztso debug") and "bad.record" not in command:
                    faults = [line for line in answer if line.startswith("ztso: ")]
                    yield command, files, (text_of(faults), text_of(line for line in answer if line not in faults))
    blocks = pages.blocks((ROOT / "docs/debugging.md").read_text())
    lines = [line for _, _, lines in blocks for line in lines if not line.startswith("$ ")]
    typed = text_of(line[2:] for line in lines if line.startswith("> "))
    answers = text_of(line for line in lines if not line.startswith("> "))
    yield f"./ztso debug {SB} {WITNESS} < typed", {"typed": typed}, (b"", answers)


def text_of(lines):
    return "".join(f"{line}\n" for line in lines).encode()


def kinds():
    """A run of each kind of command: its words and its standard input."""
    none = {"none.schedule": b"ztso-schedule 1\n"}
    yield ["run", SB, WITNESS], b"", {}
    yield ["replay", SB, WITNESS, "--buffer", "1"], b"", {}
    yield ["replay", TICKET, "some.schedule"], b"", {
        "some.schedule": b"ztso-schedule 1\n" + b"a0 a1 l0 a1*2 l1 " * 60}
    for command in ("move", "run", "replay", "shrink"):
        yield [command, SB, "record.schedule"], b"", {"record.schedule": RECORD}
    yield ["move", SB, WITNESS], b"", {}
    yield ["move", TICKET, "some.schedule", "--buffer", "1"], b"", {}
    yield ["shrink", SB, "long.schedule"], b"", {"long.schedule": LONG}
    yield ["shrink", TICKET, "ticket.schedule"], b"", {"ticket.schedule": next(iter(witnesses(ROOT / TICKET).values())).encode()}
    yield ["chart", SB, WITNESS], b"", {}
    yield ["chart", TICKET, "some.schedule", "--buffer", "1"], b"", {
        "some.schedule": b"ztso-schedule 1\n" + b"a0 a1 l0 a1*2 l1 " * 60}
    yield ["show", SB], b"", {}
    yield ["show", TICKET, "--steps"], b"", {}
    yield ["find", SB], b"", {}
    yield ["find", TICKET, "--states", "100", "--buffer", "1"], b"", {}
    yield ["check", SB], RECORDS, {}
    yield ["try", TICKET, "--seed", "7", "--runs", "40", "--length", "60", "--skip", "5", "--jobs", "3"], b"", {}
    for test in (SB, TICKET, "litmus/own-reads/n6.litmus"):
        yield ["try", test, "--seed", "7", "--runs", "40", "--length", "60"], b"", {}
    for kind in RINGS:
        yield ["channel", kind, "3", "examples/two-senders.schedule"], LISTS, {}
        yield ["channel", kind, "3", "none.schedule", "--finish"], LISTS, none
        yield ["channel", kind, "2", "none.schedule", "--finish", "--buffer", "1"], b"1 2 3\n\n4\n" * 3, none
    yield ["channel", "lamport", "3", "examples/two-senders.schedule", "--base", "64", "--stride", "40"], LISTS, {}
    yield ["channel", "lamport", "2", "record.schedule"], b"\n", {"record.schedule": CHANNEL_RECORD}
    drawn = ["2", "--seed", "7", "--runs", "20", "--length", "200"]
    yield ["ring", RING_SENDER, RING_RECEIVER, *drawn], LISTS, {}
    yield ["ring", RING_SENDER, RING_RECEIVER, *drawn, "--jobs", "2"], LISTS, {}
    # an unclean run, of which only one schedule can be printed
    yield ["ring", "stops.asm", RING_RECEIVER, *drawn], b"7\n", {"stops.asm": b"ebreak\n"}
    drawn = ["--base", "1024", "--slots", "2", "--seed", "7", "--runs", "20", "--length", "200"]
    yield ["callers", CALLERS, *drawn], b"", {}
    yield ["callers", CALLERS, *drawn, "--jobs", "2", "--skip", "3"], b"", {}
    for kind in ("cached", "fastforward"):
        yield ["callers", f"examples/callers/{kind}.litmus", *drawn, "--kind", kind], b"", {}
    for wrong in ("clears-the-queue", "has-a-function-of-its-own"):
        yield ["callers", f"examples/callers/wrong/{wrong}.litmus", *drawn], b"", {}
    own = ["--sender", RING_SENDER, "--receiver", RING_RECEIVER]
    yield ["channel", "own", "3", "examples/two-senders.schedule", *own], LISTS, {}
    yield ["debug", SB, WITNESS], COMMANDS, {}
    yield from ((["debug", SB, WITNESS], line + b"\n", {}) for line in sorted(set(COMMANDS.splitlines())))
    yield ["asm"], FORMS, {}
    yield ["dis"], WORDS, {}
    yield ["steps"], STEPS, {}
    yield ["threads", SB], b"", {}
    yield ["threads", SB, "--turns", "3", "--buffer", "1"], b"", {}
    yield ["threads", TICKET, "--turns", "2000"], b"", {}
