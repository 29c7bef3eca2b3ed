"""How tools/queue words an answer: places by their names, counts in short, one line for a line of the source, the tools' own code, the verdict's end, and
the fences that stand between records and indices."""

import os
import pty
import re
import subprocess
import tempfile
from pathlib import Path

from bring_parts import (ROOT, TOOLS, compilers, memory, queue_asked, queue_faults, queue_fences, queue_hints, queue_runs, queue_types, queue_words,
                         texts)
from bring_parts.fields import Part
from bring_parts.queue_said import Named, Said
from bring_trials import counting

from queues import Judge

NAMES = {(12, 4): "q.head", (16, 4): "q.tail", (23, 1): "rx_buf[15]"}
# lines of `ztso queue`, and what is printed in their place
WORDED = [
    ("queue 0: count n is the word 0 + 1 * ((n + 0) mod 16), and it opens at 0", "queue 0: count n is the word n mod 16, and it opens at 0"),
    ("queue 0: count n is the word 0 + 1 * ((n + 0) mod 4294967296), and it opens at 3", "queue 0: count n is the word n mod 2^32, and it opens at 3"),
    ("queue 1: count n is the word 12 + 4 * ((n + 2) mod 6), and it opens at 0", "queue 1: count n is the word 12 + 4 * ((n + 2) mod 6), and it opens at 0"),
    ("queue 0: count n is the word 0 + 1 * ((n + 65535) mod 65536), and it opens at 0", "queue 0: count n is the word (n - 1) mod 2^16, and it opens at 0"),
    ("queue 0: count n is the word 8 + 1 * ((n + 0) mod 6), and it opens at 0", "queue 0: count n is the word 8 + (n mod 6), and it opens at 0"),
    ("queue 0: it stored 7 to the 1 bytes at 23, and owned no position", "queue 0: it stored 7 to rx_buf[15], the byte at 23, and owned no position"),
    ("queue 0: it stored 7 to the 4 bytes at 40, and is neither party", "queue 0: it stored 7 to the 4 bytes at 40, and is neither party"),
    ("queue 0: it stored 7 to the 1 bytes at 24, and owned no position", "queue 0: it stored 7 to the byte at 24, and owned no position"),
    ("queue 0: its head is the 4 bytes at 12, its tail those at 16", "queue 0: its head is q.head, the 4 bytes at 12, its tail q.tail, those at 16"),
    ("queue 0: its head is the 1 bytes at 4, its tail those at 5", "queue 0: its head is the byte at 4, its tail that at 5"),
    ("queue 0: it has 16 slots of 1 bytes from 8 on, of which 15 may be in use", "queue 0: it has 16 slots of 1 byte from 8 on, of which 15 may be in use"),
    ("queue 0: it has 1 slots of 4 bytes from 8 on", "queue 0: it has 1 slot of 4 bytes from 8 on"),
    ("queue 0: the 1 bytes from 0 on of each record are 3 + 1 * j, with j from 0 to 3", "queue 0: the byte from 0 on of each record is 3 + 1 * j, with j from 0 to 3"),
    ("hart 0: never stopped", "hart 0: never stopped"),
]
# accesses of two harts, by the notes of their instructions, and what is left of the lines
ACCESS = "queue 0: {} by hart {} at pc {}, sw x5,0(x6)"
NOTES = [["9: q = r"] * 4 + ["", "", "12: q = s"], ["20: r = q"] * 2]
JOINED = [
    ([("stored to", 0, 0), ("stored to", 0, 4), ("stored to", 0, 12)], ["stored to by hart 0 at pc 0, sw x5,0(x6), and by 2 more of the same line, up to pc 12"]),
    ([("stored to", 0, 0), ("loaded from", 0, 4), ("stored to", 0, 24)], [0, 1, 2]),
    ([("stored to", 0, 16), ("stored to", 0, 20)], [0, 1]),
    ([("loaded from", 1, 0), ("loaded from", 1, 4)], ["loaded from by hart 1 at pc 0, sw x5,0(x6), and at pc 4"]),
    ([("loaded from", 2, 0), ("loaded from", 0, 400)], [0, 1]),
]
# a hart's code that calls the tools' memcpy from two lines, by its notes and instructions, and the lines for places in it
COPY = f"{compilers.SUPPORT.name}:61"
CALLER = (["9: a = b", "9: a = b", "11: c = d", COPY, COPY], [("addi", 5, 0, 1), ("jal", 1, 8), ("jal", 1, 4), ("lb", 5, 6, 0), ("sb", 5, 6, 0)])
SOURCES = [(0, ["    P0 9: a = b"]), (16, ["    in memcpy, which is code of these tools and not of yours: called by", "    P0 9: a = b", "    P0 11: c = d"]),
           (400, [])]
# what a text's comment says, and how the verdict ends
HEAD = "RISCV ring\n(* tools/from-{} *)\n{{"
GCC, CLANG = "riscv64-unknown-elf-gcc (12.2.0-14+deb12u1) 12.2.0\n   -O2 -g", "Debian clang version 14.0.6\n   -O2"
ENDS = [
    (["a/ring.c"], f"c ring.c --compiler gcc\n   {GCC}", True, "as gcc 12.2 -O2 compiles ring.c"),
    (["p.cpp", "c.rs"], f"object p.cpp c.rs --compiler clang\n   {CLANG}\n   rustc 1.63.0 --target riscv32ia.json -C opt-level=2", True,
     "as clang 14.0 -O2 and rustc 1.63 -C opt-level=2 compile p.cpp and c.rs"),
    (["ring.c"], f"c ring.c --compiler clang --fences none\n   {CLANG}", True, "as clang 14.0 -O2 compiles ring.c, without its fences"),
    (["b.litmus"], f"c ring.c --compiler gcc\n   {GCC}", False, "in b.litmus, by its comment as gcc 12.2 -O2 compiles ring.c"),
    (["b.litmus"], "herd of another tool", False, "in b.litmus"),
]
# edits of examples/queues/running_indices.litmus, what is said of its fences then, and whether there are all: a fence fewer, one that orders too little, an
# exchange that orders by itself, and an AMO on the way that does; and for the receiver fences that order just enough, or one kind of access too few
WITHOUT = "hart 0 stores a record and then moves its index with no fence, .aq or .rl between: pc 56, sw x11,8(x14), and pc "
NO_LOOK = "hart 1 looks at the other's index and then loads a record with no fence, .aq or .rl between: "
NO_TAKE = "hart 1 loads a record and then moves its index with no fence, .aq or .rl between: "
# a receiver that looks at the second tag alone, which tells of the first record too: the sender's two tags have to come in order
AHEAD_TEXT = """RISCV ahead
{{ int slot; int slot_1; 0:x5=1; 0:x6=2; }}
 P0          | P1             ;
 sw x5,0(x0) | L: lw x5,4(x0) ;
 {}          | {}             ;
 sw x6,4(x0) | beq x5,x0,L    ;
             | sw x0,0(x0)    ;
             | sw x0,4(x0)    ;
exists (1:x5=0)
"""
AHEAD_STATES = """ztso-queues 1
tagged 0 1 0 2 4 0 4 zero 0
hart
open 0
state 0
reg 5 1
reg 6 2
share 0 0 2
leaf 0
to 1
state 4
reg 6 2
share 0 1 1
leaf 0
to 2
state 8
reg 6 2
share 0 1 1
leaf 0
to 3
state 12
share 0 2 0
leaf 0
hart
open 0
state 0
share 0 0 0
leaf 0
to 1 1*0
to 2
state 4
most 4294967294
reg 5 1+1*0
share 0 0 2
leaf 0
to 3 1*1
state 4
reg 5 0
share 0 0 0
leaf 0
to 4
state 8
most 4294967294
reg 5 1+1*0
share 0 0 2
leaf 0
to 5
state 8
reg 5 0
share 0 0 0
leaf 0
to 0
state 12
share 0 0 2
leaf 0
to 6
state 16
share 0 1 1
leaf 0
to 7
state 20
share 0 2 0
leaf 0
"""
AHEAD = [("fence w,w", "fence r,r", True, "hart 1 fence r,r (pc 4); hart 0 fence w,w (pc 4)"),
         ("addi x0,x0,0", "fence r,r", False, "moves its tag and then moves its tag"),
         ("fence w,r", "fence r,r", False, "moves its tag and then moves its tag"),
         ("fence w,w", "addi x0,x0,0", False, "looks at the other's tag and then looks at the other's tag")]
FENCES = [
    ({}, "hart 0 fence iorw,ow (pc 64); hart 1 fence iorw,iorw (pc 32), fence iorw,ow (pc 64)", True),
    ({"P0": "addi x0,x0,0"}, WITHOUT, False),
    ({"P0": "fence r,rw"}, WITHOUT, False),
    ({"P0": "fence w,r"}, WITHOUT, False),
    ({"P0": "fence w,w"}, "hart 0 fence w,w (pc 64)", True),
    ({"P0": "fence.tso"}, "hart 0 fence.tso (pc 64)", True),
    ({"P0": "addi x0,x0,0", "swap": ".rl"}, "hart 0 .rl of amoswap.w.rl ", True),
    ({"P0": "addi x0,x0,0", "swap": ".aq"}, WITHOUT, False),
    ({"looks": "fence r,r"}, "hart 1 fence r,r (pc 32), fence iorw,ow (pc 64)", True),
    ({"looks": "fence r,w"}, NO_LOOK, False), ({"looks": "fence w,r"}, NO_LOOK, False),
    ({"takes": "fence r,w"}, "hart 1 fence iorw,iorw (pc 32), fence r,w (pc 64)", True),
    ({"takes": "fence r,r"}, NO_TAKE, False), ({"takes": "fence w,w"}, NO_TAKE, False),
]
EXAMPLES, RING = ROOT / "examples/queues", "head=q_put,tail=q_get,slots=q_slot,size=4"
# the types of records, as bytes of members; whether more isn't known; and what is asked of their sender by default
MEMBERS = (("time", 0, 4), ("kind", 4, 1), ("code", 6, 2), ("data", 8, 4))
WRITTEN = [(MEMBERS, True, "0-4,6-11"), (MEMBERS, False, None), ((*MEMBERS, ("flag", 5, 1)), True, "all"), ((("[0]", 0, 4), ("[1]", 4, 4), ("[2]", 8, 4)), True, "all")]


# a queue with indices and one with tags, each of four slots; entries of a run, each its hart, its kind, its place, its value and maybe its pc; what the
# program says of the last one: of a store the positions that its hart owned before it, the next one, and the pc and the value of its last look, or None; of a
# load the pc at which its position was handed back, or None; and the fault
COUNTS, TAGS = "queue 0 1 0 4 4 8 4 4 4 0 1 0 4294967296 0\n", "tagged 0 1 8 4 8 4 4 zero 0\n"
WRAPS = "queue 0 1 0 4 4 8 4 4 3 0 1 0 4 0\n"


def sent(*positions):
    """Entries of a sender that stores these records, and after each its index."""
    return [entry for position in positions for entry in ((0, "store", 8 + 4 * (position % 4), position + 1), (0, "store", 0, position + 1))]


def owns(first, last, look=None):
    """What the program says of a sender that owns these positions; none where the last one comes before the first."""
    return [f"and owned positions {first} to {last}" if first <= last else "and owned no position",
            f"queue 0: its next position is {first}, in slot {first % 4}",
            f"queue 0: it last loaded its tail at pc {look[0]}, and got {look[1]}" if look else "queue 0: it never loaded its tail"]


LOOK, LATE = (0, "load", 4, 0), (0, "store", 8, 9)
FAULTS = [
    (COUNTS, [(0, "store", 0, 1), LATE], owns(1, 3), "PublishedFirst"), (COUNTS, [(0, "amo", 0, 1), LATE], owns(1, 3), "PublishedFirst"),
    # a record that is stored again, one that is stored elsewhere, and one of which only the next is published
    (COUNTS, [*sent(0), LATE], owns(1, 3), "Elsewhere"), (COUNTS, [*sent(0, 1), LATE], owns(2, 3), "Elsewhere"),
    (COUNTS, [*sent(0), (0, "store", 0, 2), LATE], owns(2, 3), "Elsewhere"),
    # a wrong slot, by the instruction that stored the record of the position before
    (COUNTS, [(0, "store", 20, 9, 400), (0, "store", 0, 1), (0, "store", 8, 9, 400)], owns(1, 3), "Elsewhere"),
    (TAGS, [(0, "store", 32, 9, 400), (0, "store", 12, 1), (0, "store", 8, 9, 400)], owns(1, 0), None),
    (COUNTS, [LOOK, *sent(0, 1, 2, 3), LATE], owns(4, 3, (0, 0)), "Overwrites"), (COUNTS, [*sent(0, 1, 2, 3), LATE], owns(4, 3), "Overwrites"),
    # a store to a slot that its hart owns, as of a part of more
    (COUNTS, [*sent(0, 1, 2, 3), (0, "load", 4, 1), LATE], owns(4, 4, (32, 1)), None), (WRAPS, [*sent(0, 1, 2), (0, "store", 20, 9)], owns(3, 2), "Overwrites"),
    (WRAPS, [*sent(0, 1, 2), (0, "load", 4, 1), (0, "store", 20, 9)], owns(3, 3, (24, 1)), None),
    # the same turn later, where the sender's index begins anew
    (WRAPS, [*sent(0, 1, 2), (0, "load", 4, 3), (0, "store", 20, 4), (0, "store", 0, 0), (0, "store", 0, 1), LATE], owns(5, 5, (24, 3)), "PublishedFirst"),
    (COUNTS, [(1, "store", 4, 1), (1, "load", 8, 5)], 0, "HandedBack"), (COUNTS, [(1, "store", 4, 1), (1, "load", 16, 5)], None, "OtherSlot"),
    (COUNTS, [(1, "load", 8, 5)], None, None),
    (TAGS, [(0, "store", 12, 1), LATE], owns(1, 0), "PublishedFirst"), (TAGS, [(0, "store", 8, 5), (0, "store", 12, 1), LATE], owns(1, 0), None),
    (TAGS, [(0, "store", 20, 1), LATE], owns(1, 0), None), (TAGS, [(1, "store", 12, 0), (1, "load", 8, 5)], 0, "HandedBack"),
    (TAGS, [(1, "store", 12, 0), (1, "load", 12, 1), (1, "load", 8, 5)], None, None), (TAGS, [(1, "store", 20, 0), (1, "load", 8, 5)], None, None),
]


def fault_of(certificate, entries, told):
    """What a run's last entry is called, where the program says this of it."""
    queue, = queue_hints.queues_of(certificate)
    made = [queue_runs.Entry(number, ("a", hart), *(pc or [4 * number]), "", kind, hart, at, 4, value)
            for number, (hart, kind, at, value, *pc) in enumerate(entries)]
    last = made[-1]
    if last.kind == "load":
        return queue_faults.of_load(queue, last, made, Said("\n".join(["", *[f"queue 0: handed back at pc {told}"] * (told is not None)])))
    said = Said("\n".join(["", f"queue 0: it stored {last.value} to the 4 bytes at {last.at}, {told[0]}", *told[1:]]))
    named = Named(last.hart, last.pc, None)
    return queue_faults.of_store(queue, queue_faults.breaking(queue, named, said, made), made, said)


def edited(text, edit):
    """The text of running_indices.litmus with the first hart's fence, its exchange, and the second one's fences, changed."""
    lines = text.split("\n")
    for at, line in enumerate(lines):
        first, bar, second = line.partition("|")
        if "P0" in edit and first.strip().startswith("fence iorw,ow"):
            first = f" {edit['P0']} "
        if "swap" in edit and first.strip().startswith("amoswap.w "):
            first = first.replace("amoswap.w ", f"amoswap.w{edit['swap']} ")
        for key, fence in (("looks", "fence iorw,iorw"), ("takes", "fence iorw,ow")):
            if key in edit and second.strip().startswith(fence):
                second = f" {edit[key]} ;"
        lines[at] = first + bar + second
    return "\n".join(lines)


def fences(count, folder, program):
    """The fences between records and indices, by the certificate of the unchanged text, which is that of each changed one too."""
    certificate, text = Path(folder, "a.certificate"), (EXAMPLES / "running_indices.litmus").read_text()
    counting.run("certify", EXAMPLES / "running_indices.litmus", "--queue", RING, "-o", certificate, "--program", program)
    for edit, wanted, are_ordered in FENCES:
        changed = texts.read(edited(text, edit), "changed").test
        judge = Judge(changed, certificate.read_text())
        found, = queue_fences.of_answer(judge)
        said, ordered = "\n".join(queue_fences.lines(judge, found, True)), found.are_all()
        count.told(f"the fences with {edit}", wanted in said and ordered == are_ordered and (queue_fences.ALONE in said) != are_ordered, said)
    for stores, looks, are_ordered, wanted in AHEAD:
        found, = queue_fences.of_answer(Judge(texts.read(AHEAD_TEXT.format(stores, looks), "ahead").test, AHEAD_STATES))
        said = "\n".join(queue_fences.lines(None, found, True)) if are_ordered else str([order.does(found.index) for order in found.lacking()])
        count.told(f"the fences between {stores} and {looks}", wanted in said and found.are_all() == are_ordered, said)


def at_terminal(program, variables):
    """What a terminal is shown of an answer."""
    shows, takes = pty.openpty()
    with subprocess.Popen([TOOLS / "queue", EXAMPLES / "running_indices.litmus", "--queue", RING, "--program", program], stdin=subprocess.DEVNULL, stdout=takes,
                          stderr=subprocess.DEVNULL, env={**os.environ, "TERM": "xterm", **variables}) as process:
        os.close(takes)
        told = b""
        try:
            while part := os.read(shows, 4096):
                told += part
        except OSError:
            pass  # the terminal's end
        process.wait()
    os.close(shows)
    return told.decode()


def types_of(members, is_whole):
    """Slots of structs of 12 bytes with these members."""
    dot = "" if members[0][0].startswith("[") else "."
    parts = [Part(12 * at + begin, size, f"slot[{at}]{dot}{name}") for at in range(4) for name, begin, size in members]
    return queue_types.Types(memory.Memory([0] * 20, [memory.Placed(12, 48, "slot", parts, is_whole=is_whole)]))


def part(count, program):
    for line, wanted in WORDED:
        came = queue_words.worded(line, lambda place, width: NAMES.get((place, width)))
        count.told(f"the words of {line}", came == wanted, came)
    for accesses, wanted in JOINED:
        lines = [ACCESS.format(*access) for access in accesses]
        came, wanted = list(queue_words.joined(lines, NOTES)), [lines[each] if isinstance(each, int) else f"queue 0: {each}" for each in wanted]
        count.told(f"the lines of {accesses}", came == wanted, str(came))
    for pc, wanted in SOURCES:
        notes, code = CALLER
        came = queue_words.source_lines(0, pc, [notes + [""] * 200], code)
        count.told(f"the source of pc {pc}", came == wanted, str(came))
    for files, comment, is_source, wanted in ENDS:
        came = queue_asked.where(files, HEAD.format(comment), is_source)
        count.told(f"how the verdict on {files} ends", came == wanted, came)
    queues = queue_hints.queues_of("queue 0 1 4 8 4 12 4 12 4 0 1 0 4294967296 0\n")
    for members, is_whole, wanted in WRITTEN:
        came = queue_types.bytes_by_types(queues, types_of(members, is_whole))
        count.told(f"what is asked of records of {members}", came == wanted, str(came))
    for certificate, entries, told, wanted in FAULTS:
        fault = fault_of(certificate, entries, told)
        count.told(f"the fault of {entries}", (fault and type(fault).__name__) == wanted, str(fault))
    with tempfile.TemporaryDirectory() as folder:
        fences(count, folder, program)
    for variables, has_colour in (({}, True), ({"NO_COLOR": "1"}, False), ({"TERM": "dumb"}, False)):
        told = at_terminal(program, variables)
        wanted = r"\x1b\[1;32mkept in every run, .*\x1b\[0m\r\nrely on: " if has_colour else r"kept in every run, [^\x1b]*\r\nrely on: [^\x1b]*"
        count.told(f"the verdict at a terminal with {variables}", re.match(wanted, told) is not None, told)
