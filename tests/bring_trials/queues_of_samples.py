"""The queues of the samples: where each lies, as its source names it, and what tools/queue says of a text or of sources."""

import re
import runpy
import tempfile
from pathlib import Path
from types import SimpleNamespace

from bring_parts import ROOT, TOOLS, Refused, compilers, memory, queue_described, queue_hints, queue_places, queue_types, queue_uncovered
from bring_parts.fields import Part
from bring_trials import counting

from sections import sections

EXAMPLES = ROOT / "examples"
QUEUES = {
    "cpp/queue": "head=ring::queue.write_,tail=ring::queue.read_,slots=ring::queue.slots_,size=3,index=wrapping",
    "rust/queue": "head=QUEUE.tail,tail=QUEUE.head,slots=QUEUE.slots,size=2",
    "rust/mixed-consumer": "head=queue.tail,tail=queue.head,slots=queue.slots,size=2",
    "assembly/queue": "head=queue+64,tail=queue,slots=queue+128,size=2",
}
# places as a source names them, and as a text does that has these locations
NAMED = [("ring::queue.write_", "queue_write"), ("queue_write", "queue_write"), ("queue+64", "queue+64"), ("queue.write_+2", "queue_write+2"),
         ("a::b::words[1].id", "words_1_id"), ("queue.record", "queue_record_0_time"), ("queue.record+4", "queue_record_0_time+4"),
         ("queue.other", "queue.other"), ("64", "64")]
# places of a text and what their bytes are called
CALLED = [((4, 1), "queue"), ((6, 1), "queue+2"), ((8, 4), None), ((79, 1), "queue_record_0_time+3")]
# instructions, whether one's first source was loaded whole, and whether it leaves all of that (1), or some bits (2)
MASKED = [(("andi", 5, 6, 255), 1), (("andi", 5, 6, -1), 1), (("andi", 5, 6, 1), 2), (("srli", 5, 6, 4), 2), (("addi", 5, 6, 1), 1), (("andi", 5, 7, 1), 0),
          (("sub", 5, 6, 7), 0), (("sub", 5, 7, 6), 0)]
LOCATIONS = {"null": 0, "queue": 4, "queue_write": 68, "words_1_id": 72, "queue_record_0_time": 76}
# what the search says and what is answered, the notes of a hart, a certificate's queue, and parts of what helps
COUNTS, TAGS = "queue 0 1 4 8 1 12 16 8 16 0 1 0 256 0\n", "tagged 0 1 12 8 12 4 1 zero 0\n"
NOT_COVERED = "hart 0 is not covered: at pc 4, sw x1,0(x2): why\n"
DRAWN = "queue 0: kept in 1000 drawn runs of 1000 events, in which {} positions were published and 0 taken"
BROKEN = "broken: hart 0 at pc 4\nqueue 0: it stored 1 to the 4 bytes at 12, and owned no position\n"
KEPT = "kept in every run\nqueue 0: stored to by hart 0 at pc 4, sw x5,0(x6)\nqueue 0: loaded from by hart 1 at pc 4, lw x5,0(x6)\n"
HINTS = [
    ("", "not shown: no instruction of hart 1 loads from a slot of queue 0\n", [], COUNTS, ["volatile object"]),
    ("", "not shown: no instruction of hart 0 stores to a slot of queue 0\n", [], COUNTS, ["one global object"]),
    (NOT_COVERED, "not shown\n", ["12: i % 6", "12", "ztso-support.c:30"], COUNTS, ["`%` and `/` by what is no power of two"]),
    (NOT_COVERED, "not shown\n", ["12: i % 6", "ztso-support.c:61", "ztso-support.c:30"], COUNTS, ["a copy by a loop"]),
    (NOT_COVERED, "not shown\n", ["12: i * 6", "12", "ztso-support.c:4"], COUNTS, []),
    (NOT_COVERED, "not shown\n", ["12: i % 6", "12"], COUNTS, []),
    (NOT_COVERED, BROKEN, ["12: i % 6", "12", "ztso-support.c:30"], COUNTS,
     ["if queue 0 isn't 16 slots of 8 bytes with indices of 1 byte that count on, the fault is in its description: see size=, width=, bytes=, index=wrapping"]),
    ("", BROKEN, [], COUNTS.replace("16 0 1 0 256", "15 0 1 0 16"), ["indices of 1 byte that go back to 0 after the last slot", "index=counting"]),
    ("", BROKEN, [], COUNTS.replace("0 1 0 256", "12 8 0 16"), ["whose word of count n is 12 + 8 * (n mod 16)"]),
    ("", BROKEN, [], TAGS, ["8 slots of 12 bytes with the tag in bytes 4-4 of each, 0 where it is free, the fault", "tag=, tells="]),
    ("", BROKEN, [], TAGS.replace("zero", "bits 128 0 128"), ["in bytes 4-4 of each, its bits under 0x80 0x0 where it is free, the fault"]),
    ("", BROKEN, [], TAGS.replace("zero", "phases 3 0 1 3 2"), ["its bits under 0x3 0x0 where it is free, in odd rounds 0x3, the fault"]),
    ("", "not shown\n" + DRAWN.format(10999), [], COUNTS, ["about 11 positions each, and one turn of its index is 256: try --length 47000 --runs 20"]),
    ("", "not shown\n" + DRAWN.format(10999), [], COUNTS.replace("256", "4294967296"),
     ["about 11 positions each, and one turn of its slots is 16: try --length 3000 --runs 20"]),
    ("", "not shown\n" + DRAWN.format(0), [], TAGS, ["about 0 positions each, and one turn of its slots is 8: try --length 100000 --runs 20"]),
    ("", "not shown\n" + DRAWN.format(512000), [], COUNTS, []),
    ("", KEPT, ["ztso-support.c:30"], COUNTS, []),
]
# the parts of objects, as `q` with two indices of a byte and structs of 8 bytes; descriptions, and what is made of them or refused
PARTS = [Part(0, 1, "q.in"), Part(1, 1, "q.out"), Part(2, 2, "q.wide"), *(Part(4 + 8 * at + 4 * of, 4 - 3 * of, f"q.slot[{at}].{name}")
         for at in range(4) for of, name in enumerate(("id", "full")))]
LONG = [Part(0, 8, "l.head"), Part(8, 8, "l.tail"), *(Part(16 + at, 1, f"l.byte[{at}]") for at in range(32)),
        *(Part(48 + 8 * at + 4 * of, 4, f"l.row[{at}][{of}]") for at in range(3) for of in range(2)), Part(72, 4, "l.one[0]"),
        Part(76, 4, "l.either.word"), Part(76, 1, "l.either.bytes[0]")]
OF_Q, OF_L = "head=q.in,tail=q.out,slots=q.slot", "head=q.in,tail=q.out,slots=l."
TYPED = [
    ("--queue", OF_Q, OF_Q + ",size=4,width=8,bytes=1"), ("--queue", OF_Q + ",size=2,bytes=1", OF_Q + ",size=2,bytes=1,width=8"),
    ("--queue", "head=q_in,tail=q+1,slots=q_slot_0_id", "head=q_in,tail=q+1,slots=q_slot_0_id,size=4,width=8,bytes=1"),
    ("--queue", OF_L + "byte", OF_L + "byte,size=32,width=1,bytes=1"), ("--queue", OF_L + "byte,width=8", OF_L + "byte,width=8,size=4,bytes=1"),
    ("--queue", OF_L + "row", OF_L + "row,size=3,width=8,bytes=1"), ("--queue", OF_L + "row,size=6,width=4", OF_L + "row,size=6,width=4,bytes=1"),
    ("--queue", OF_L + "row[1]", OF_L + "row[1],size=2,width=4,bytes=1"), ("--queue", OF_L + "one", OF_L + "one,size=1,width=4,bytes=1"),
    ("--queue", "head=l.either,tail=l.either+2,slots=12", "head=l.either,tail=l.either+2,slots=12"),
    ("--queue", "head=l.either.word,tail=l.one,slots=12", "head=l.either.word,tail=l.one,slots=12,bytes=4"),
    ("--queue", OF_Q + ",size", OF_Q + ",size"), ("--queue", OF_Q + ",size=2,size=4", OF_Q + ",size=2,size=4"), ("--queue", "head=q.in", "head=q.in"),
    ("--queue", OF_Q + ",width=4", "q.slot has 4 elements of 8 bytes, and not of width=4, which is in bytes: leave width out, or say width=8"),
    ("--queue", OF_Q + ",size=8,width=8",
     "q.slot has 4 elements of 8 bytes, too few for 8 slots of 8 bytes: leave size and width out, or say size=4,width=8"),
    ("--queue", OF_L + "byte,size=16,width=32",
     "l.byte has 32 elements of 1 byte, too few for 16 slots of 32 bytes: leave size and width out, or say size=32,width=1"),
    ("--queue", OF_Q + ",bytes=4", "q.in has 1 byte, and not bytes=4: leave bytes out, or say bytes=1"),
    ("--queue", OF_Q.replace("q.out", "q.wide"), "q.in has 1 byte and q.wide 2: both indices must have the same type"),
    ("--queue", "head=l.head,tail=l.tail,slots=q.slot",
     "l.head has 8 bytes, and an index has 1, 2 or 4: the code is compiled for RV32, take uint32_t or size_t"),
    # the lower word of a number of 8 bytes, where that is said
    ("--queue", "head=l.head,tail=l.tail,slots=q.slot,bytes=4", "head=l.head,tail=l.tail,slots=q.slot,bytes=4,size=4,width=8"),
    ("--tagged", "slots=q.slot", "slots=q.slot,size=4,width=8,tag=0+4"), ("--tagged", "slots=q.slot,tag=4", "slots=q.slot,tag=4+1,size=4,width=8"),
    ("--tagged", "slots=q.slot,tag=q.slot[0].full,size=2", "slots=q.slot,tag=q.slot[0].full+1,size=2,width=8"),
    ("--tagged", "slots=q.slot,tag=q.slot[0].full+4", "the tag q.slot[0].full has 1 byte, and not 4: leave +4 out, or say tag=q.slot[0].full+1"),
    ("--tagged", "slots=l.row,tag=l.row[0][1]+1", "the tag l.row[0][1] has 4 bytes, and not 1: leave +1 out, or say tag=l.row[0][1]+4"),
    ("--tagged", "slots=l", "the tag at 0 has 8 bytes, and may have at most 4: say which they are, as tag=0+4"),
]
# a description of a source by its author's names, of which one leaves the tag's bytes out, and what tools/certify is given
PLACED = {"q.slot": "12", "q.slot[0].full": "16", "q.sent": "4", "q.taken": "8"}
DESCRIBED = [(None, ["slots=q.slot,size=2,width=8,tag=q.slot[0].full+1"], ["--tagged", "slots=12,size=2,width=8,tag=4+1"]),
             (None, ["slots=q.slot, size=2, width=8, tag=4+1"], ["--tagged", "slots=12,size=2,width=8,tag=4+1"]),
             (["head=q.sent,tail=q.taken,slots=q.slot,size=2"], None, ["--queue", "head=4,tail=8,slots=12,size=2"]),
             (["head=q.sent,tail=q.taken,slots=q.slot,size=2,scale=8,base=q.slot"], None, ["--queue", "head=4,tail=8,slots=12,size=2,scale=8,base=12"])]
# what drawn runs propose, by a text's places and by the source's names
IN_TEXT = {"q_in": 4, "q_out": 5, "q_slot": 8}
PROPOSED = [("--queue head=q_in,tail=q_out,slots=q_slot,bytes=1", "--queue head=q.in,tail=q.out,slots=q.slot,bytes=1"),
            ("--queue head=12,tail=away,slots=q_slot", "--queue head=12,tail=away,slots=q.slot")]
# a line after a schedule's first one, and what a terminal is shown
SCHEDULES = [("a0*3 l0", "a0*3 l0"), ("a0*3 l0 " * 60, "a0*3 l0 " * 49 + "a0*3 l0 .. 240 events in all: -o FOLDER keeps them")]
# edits of examples/cpp/queue.cpp, the places, and parts of what comes
PLACES = QUEUES["cpp/queue"]
EDITS = [
    ((), PLACES, ["kept in every run", "mine.cpp:32: P0: slots_[write] = value"]),
    ((("16 * seen + *word", "seen + 1"),), PLACES, ["no instruction of hart 1 loads from a slot", "a volatile object"]),
    ((("write + 1;", "(write + 1) % slots_.size();"),), PLACES, ["kept in every run"]),
    ((), PLACES.replace("write_", "wrote"),
     ["ring::queue.wrote is no place of the program: there are queue.slots_[0], queue.write_, queue.read_cache_"]),
    ((("extern", "extern int no; extern"), ("pushed +", "no + pushed +")), PLACES, ["`no` isn't defined"]),
]
# a queue of structs in C, with indices of one type, and one whose slots tell whose they are by a byte, of whose members some are used; what is asked
# of it, and parts of what comes
UNASKED = ["--written", "none", "--read", "none"]
RING = """#include <stdint.h>
struct { volatile TYPE head, tail; volatile struct { int id, price, many; } order[8]; } ring;
volatile int out;
void P0(void) {
  for (int n = 0;; n++) {
    while ((TYPE)(ring.head - ring.tail) >= 8) {}
    ring.order[ring.head % 8].id = n;
    ring.head++;
  }
}
void P1(void) {
  for (;;) {
    while (ring.head == ring.tail) {}
    out = ring.order[ring.tail % 8].id;
    ring.tail++;
  }
}
"""
FLAGS = """volatile struct { int value; unsigned char full; } slot[4];
volatile int out;
void P0(void) {
  for (unsigned n = 0;; n++) {
    while (slot[n % 4].full) {}
    slot[n % 4].value = n;
    slot[n % 4].full = 1;
  }
}
void P1(void) {
  for (unsigned n = 0;; n++) {
    while (!slot[n % 4].full) {}
    out = slot[n % 4].value;
    slot[n % 4].full = 0;
  }
}
"""
# where an input, which no hart stores to, would break it
INPUT = RING.replace("TYPE", "uint32_t").replace("volatile int out;", "volatile int out; volatile uint16_t mode; _Atomic unsigned char halt; int more = 1;") \
    .replace("    ring.head++;\n", "    if (mode) ring.head++;\n    ring.head += more;\n    if (halt) return;\n")
OF_RING = "head=ring.head,tail=ring.tail,slots=ring.order"
OF_TYPES = [(RING.replace("TYPE", f"uint{bits}_t"), "--queue", OF_RING,
             ["kept in every run", f"its head is ring.head, the {'byte' if bits == 8 else f'{bits // 8} bytes'} at ", "has 8 slots of 12 bytes"])
            for bits in (8, 16, 32)]
OF_TYPES += [
    (RING.replace("TYPE", "uint64_t"), "--queue", OF_RING, ["queue: ring.head has 8 bytes, and an index has 1, 2 or 4: the code is compiled for RV32"]),
    (RING.replace("TYPE", "uint8_t"), "--queue", f"{OF_RING},size=8,width=4", ["ring.order has 8 elements of 12 bytes, and not of width=4"]),
    (RING.replace("(TYPE)", "(uint8_t)").replace("TYPE", "uint8_t").replace(">= 8", "> 8"), "--queue", OF_RING,
     ["broken: ", "\nif queue 0 isn't 8 slots of 12 bytes with indices of 1 byte that count on, the fault is in its description: "]),
    (re.sub("% 8|>= 8", lambda shape: shape[0].replace("8", "3"), RING).replace("[8]", "[3]").replace("TYPE", "uint32_t"), "--queue", OF_RING,
     ["is not covered", "not shown: ", "\n`%` and `/` by what is no power of two"]),
    (INPUT, "--queue", OF_RING, ["kept in every run", "\nno hart stores to halt and mode, which are volatile or atomic: in every run each is what it opens as. "]),
    (FLAGS, "--tagged", "slots=slot,tag=slot[0].full", ["kept in every run", "its tag is the byte at 4 of each slot"]),
]
ROW = re.compile(r"\| \[([\w-]+)\]\([\w.-]+\) \| `(head=.*?)` \| (.*) \|")


def answer_of(files, sample, program=None, options=()):
    """The first line of the answer, up to the model, or what is refused."""
    words = [*files, "--queue", QUEUES[sample], *options, *(["--program", program] if program else [])]
    _, printed, error = counting.run("queue", *words)
    return (printed + error).partition("\n")[0].partition(": queue ")[0]


def part(count, program):
    """The kept texts of the samples that are queues have the answers of their pages, without a compiler."""
    for folder in sorted({sample.partition("/")[0] for sample in QUEUES}):
        page = (EXAMPLES / folder / "README.md").read_text()
        found = ROW.findall(page)
        heads = re.search(r"^\| Queue \| .*? \| (.*) \|$", page, re.MULTILINE)[1].split(" | ")
        rows = {f"{folder}/{name}": (asked, cells.split(" | ")) for name, asked, cells in found}
        count.told(f"the queues of examples/{folder}", {name: asked for name, (asked, _) in rows.items()}
                   == {name: asked for name, asked in QUEUES.items() if name.startswith(f"{folder}/")}, str(rows))
        for sample, (_, cells) in rows.items():
            for way, wanted in zip(heads, cells):
                came = answer_of([EXAMPLES / f"{sample}.{way}.litmus"], sample, program)
                count.told(f"tools/queue of {sample} by {way}", wanted == "kept in every run, and goes on while its harts run" == came, f"{came}, and {wanted} is written")
    queue = runpy.run_path(str(TOOLS / "queue"))
    for place, wanted in NAMED:
        count.told(f"the place {place} of a text", queue_described.named_in(LOCATIONS, place) == wanted, queue_described.named_in(LOCATIONS, place))
    for place, wanted in CALLED:
        came = queue_places.Places(SimpleNamespace(locations=LOCATIONS), [], {}, None, {}).name_of(*place)
        count.told(f"what the bytes at {place} are called", came == wanted, came)
    for instruction, wanted in MASKED:
        count.told(f"what {instruction} leaves", queue_uncovered.masked(instruction, {6: 1}) == wanted, "")
    for found, answer, notes, certificate, wanted in HINTS:
        lines = answer.splitlines()
        after = (line for line in queue_hints.added(iter(lines), certificate) if line not in lines)
        came = "\n".join([*after, *queue_hints.at_end(answer, found, [notes], certificate)])
        count.told(f"what helps after {found + answer!r}", all(part in came for part in wanted) and bool(came) == bool(wanted), came)
    for queues, tagged, wanted in DESCRIBED:
        came = [*queue_described.described(SimpleNamespace(queue=queues, tagged=tagged), PLACED.get, None)]
        count.told(f"what is made of {queues or tagged}", came == wanted, str(came))
    types = queue_types.Types(memory.Memory([0] * 40, [memory.Placed(4, 36, "q", PARTS), memory.Placed(40, 80, "l", LONG)]))
    for kind, given, wanted in TYPED:
        try:
            came = queue_types.completed(kind, given, types)
        except Refused as refused:
            came = str(refused)
        count.told(f"what the types say of {given}", came == wanted, came)
    for said, wanted in PROPOSED:
        came = queue_described.in_source(said, SimpleNamespace(locations=IN_TEXT), types)
        count.told(f"how the source calls {said}", came == wanted, came)
    for line, wanted in SCHEDULES:
        count.told(f"a schedule of {len(line)} characters at a terminal", queue["shown"](line, True) == wanted, queue["shown"](line, True))


def compiled(count, program, _):
    """Sources without a condition, by both compilers, as files and as an object."""
    text = re.sub(r"^// forall.*\n", "", (EXAMPLES / "cpp/queue.cpp").read_text(), flags=re.MULTILINE)
    with tempfile.TemporaryDirectory() as folder:
        for edits, places, wanted in EDITS:
            edited = text
            for old, new in edits:
                edited = edited.replace(old, new)
            file = counting.write(folder, "mine.cpp", edited)
            for compiler in ("gcc", "clang"):
                _, printed, error = counting.run("queue", file, "--queue", places, "--lines", "--compiler", compiler, "--program", program)
                count.told(f"tools/queue of {edits or places} by {compiler}", all(part in printed + error for part in wanted), printed + error)
        for source, kind, places, wanted in OF_TYPES:
            file = counting.write(folder, "mine.c", source)
            for compiler in ("gcc", "clang"):
                _, printed, error = counting.run("queue", file, kind, places, *UNASKED, "--lines", "--compiler", compiler, "--program", program)
                count.told(f"tools/queue of {places} and of types by {compiler}", all(part in printed + error for part in wanted), printed + error)
        module = Path(folder, "mine.o")
        compilers.Compiler("gcc").compile(counting.write(folder, "mine.cpp", text), module, language="C++")
        _, printed, error = counting.run("queue", module, "--queue", PLACES, "--lines", "--program", program)
        count.told("tools/queue of an object", "kept in every run" in printed and "P0 mine.cpp:32: slots_[write] = value" in printed, printed + error)
        sources = dict(sections((ROOT / "tests/queue_trials/sources.texts").read_text()))
        c = re.sub(r"/\* exists.*?\*/", "", sources["running_indices"])
        file = counting.write(folder, "mine.c", c)
        _, printed, error = counting.run("queue", file, "--queue", "head=q.tail,tail=q.head,slots=q.slot,size=4", "--lines", "--program", program)
        count.told("tools/queue of C without a condition", "kept in every run" in printed and "(* tools/from-c" not in printed, printed + error)
