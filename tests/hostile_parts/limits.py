"""Inputs at the limits and one past them. The wanted answer stands here, and the reference, except of `threads` and of the
longest ways of `find`, must give it too."""

import re
import resource
from pathlib import Path

from ring_kinds import RINGS

from . import ROOT
from .runs import BAD_COMMAND_LINE, brief, refused

INPUT, EVENTS, CODE = 1_048_576, 1_048_576, 4096
NONE = b"ztso-schedule 1\n"
SB = str(ROOT / "litmus/store-buffering/sb.litmus")
SENDER, RECEIVER = (str(ROOT / f"examples/rings/lamport-{role}.asm") for role in ("sender", "receiver"))
DRAWN = ["--seed", "1", "--runs", "1", "--length", "0"]
CALLERS = str(ROOT / "examples/callers/lamport.litmus")
QUEUE = ["--base", "1024", "--slots", "2"]
NO_BLOCK = 1, b"", NONE + b"the block isn't aligned to 4 bytes, has no slot, or ends past the memory\n"
NO_SEND = 1, b"", NONE + b"hart 0 has no cached_try_send in its code\n"
KINDS = ["litmus", "schedules", "records", "shrink", "show", "steps", "asm", "dis", "debug", "channels", "options", "in little memory", "threads", "find"]
MIB = 1 << 20
# of so many events or bytes the reference takes half a second and more
LONG, COUNT = 400_000, re.compile(rb"[0-9]+")


def litmus(harts=1, cells=(), items="", condition="exists (x=0)"):
    """A litmus text, whose table begins at line 3 and whose cells are the first hart's."""
    names = " | ".join(f"P{hart}" for hart in range(harts))
    rows = "".join(f" {cell}{' |' * (harts - 1)} ;\n" for cell in cells)
    return f"RISCV X\n{{{items}}}\n {names} ;\n{rows}{condition}\n".encode()


def tests():
    """Litmus texts: what is wanted is a refusal, or None where the text is read."""
    yield litmus(64), None
    yield litmus(65), refused(26, " at line 3")
    names = [f"x{i}" for i in range(1026)]
    for count, wanted in ((1024, None), (1025, refused(26, " at line 2"))):
        yield litmus(items=";".join(f"{name}=1" for name in names[:count]), condition="exists (x0=1)"), wanted
    for count, wanted in ((1024, None), (1025, refused(26, " at line 4"))):
        yield litmus(condition="exists " + " /\\ ".join(f"{name}=0" for name in names[:count])), wanted
    # the places of registers name locations too
    yield litmus(items=";".join(f"0:x5={name}" for name in names[:1025])), refused(26, " at line 2")
    nops = ["nop"] * CODE
    yield litmus(cells=nops), None
    yield litmus(cells=[*nops, "end:"]), None
    yield litmus(cells=[*nops, "nop"]), refused(26, f" at line {CODE + 4}")
    yield litmus(cells=[*nops[:-1], "li x5,4097"]), refused(26, f" at line {CODE + 3}")
    yield litmus(cells=[*nops[:-2], "li x5,4097"]), None
    text = litmus()
    for more, wanted in ((0, None), (1, refused(37))):
        yield text + b" " * (INPUT - len(text) + more), wanted


def schedules():
    head = len(NONE)
    for text, wanted in [
            (b"a0*1048576", None), (b"a0*1048577", refused(30, f" at byte {head}")),
            (b"a0*1048576 l0", refused(30, f" at byte {head + 11}")),
            (b"a0*1048575 l0 a1", refused(30, f" at byte {head + 14}")), (b"a0*1048575 l0", None),
            (b"a63 l63", None), (b"l64", refused(29, f" at byte {head}")), (b"a0*0", refused(30, f" at byte {head}")),
            (b" " * (INPUT - head), None), (b" " * (INPUT - head + 1), refused(37))]:
        yield NONE + text, wanted


def records():
    """Schedules of version 2, whose first two lines are the acts of the first hart."""
    acts = b"ztso-schedule 2\na0 store 0 0 1\na0 load 0 4 0\n"
    head = len(acts)
    for text, wanted in [
            (b"a0*1048574 over 0", None), (b"a0*1048575 over 0", refused(30, f" at byte {head}")),
            (b"a0*1048574 over 0\nl0 land 0", refused(30, f" at byte {head + 18}")),
            (b"a0*1048573 over 0\nl0 land 0", None), (b"a0*0 over 0", refused(30, f" at byte {head}")),
            (b"a0*1048574 waited 0", refused(38, " at event 2")),
            (b"a63 nohart 63", None), (b"a64 nohart 64", refused(29, f" at byte {head}")),
            (b"a0 load 0 4 4294967295", refused(38, " at event 2")),
            (b"a0 load 0 4 4294967296", refused(39, f" at byte {head}")),
            (b"a0 stopped 0 8", refused(38, " at event 2")), (b"a0 stopped 0 15", refused(38, " at event 2")),
            (b"a0 stopped 0 7", refused(39, f" at byte {head}")), (b"a0 stopped 0 16", refused(39, f" at byte {head}")),
            (b" " * (INPUT - head), None), (b" " * (INPUT - head + 1), refused(37))]:
        yield acts + text, wanted


def finished():
    """Schedules of the largest size whose run is finished, or not."""
    for text, wanted in [
            (b"a0*524288 a1*524286 l0 l1", None), (b"a0*524288 a1*524287 l0", refused(40)),
            (b"a0*524288 a1*524287 l0 l1", refused(30, " at byte 39"))]:
        yield NONE + text, wanted


def inputs():
    """Commands that read standard input alone."""
    nop = b"00000013 "
    for text, wanted in [
            (b"hart\n" * 64, None), (b"hart\n" * 65, refused(34, " at line 65")),
            (b"hart " + nop * CODE, None), (b"hart\nhart " + nop * (CODE + 1), refused(34, " at line 2")),
            (b"hart\nsteps a0*1048576", None), (b"hart\nsteps a0*1048576\nsteps\n", None),
            (b"hart\nsteps a0*1048576\nsteps a0\n", refused(30, " at line 3")),
            (b"hart\nsteps a0*1048576 l0\n", refused(30, " at line 2")),
            (b"hart\nreg 0 31 4294967295\nword 16380 4294967295", None),
            (b"hart\nreg 0 32 1", refused(34, " at line 2")),
            (b"hart\nreg 0 5 4294967296", refused(34, " at line 2")),
            (b"hart\nword 16384 1", refused(34, " at line 2"))]:
        yield ["steps"], text, wanted
    for text, wanted in [(b"nop\n" * CODE, None), (b"nop\n" * CODE + b"end:#", None),
                         (b"nop\n" * (CODE + 1), refused(7, f" at line {CODE + 1}")),
                         (b"nop\n" * (CODE - 1) + b"li x5,4097\n", refused(7, f" at line {CODE}")),
                         (b"j end\n" + b"nop\n" * (CODE - 1) + b"end:\n", None)]:
        yield ["asm"], text, wanted
    for words, text in ((["asm"], b"nop\n"), (["dis"], b"fe029ee3\n"), (["steps"], b"hart\n")):
        for more, wanted in ((0, None), (1, refused(37))):
            yield words, text + b"\n" * (INPUT - len(text) + more), wanted
    # the debugger has no limit on its input
    yield ["debug", SB, "schedule"], b"t\n" + b" " * INPUT + b"t\n" * 3, None
    yield ["debug", SB, "schedule"], b"a 4294967295\na 4294967296\nu " + b"9" * 100_000 + b"\nt\n", None


def shown():
    """Tests whose steps text is as large as an input may be, and one byte larger: 5 bytes for each of the harts, and 9
    for each of 116,472 words."""
    names, row = "|".join(f"P{hart}" for hart in range(64)), "|".join(["nop"] * 64)
    for last, wanted in ((56, None), (57, refused(37))):
        rows = f"{row};\n" * 1819 + "|".join(["nop"] * last + [""] * (64 - last)) + ";\n"
        yield f"RISCV X\n{{}}\n{names};\n{rows}exists (x=0)\n".encode(), wanted


def in_little_memory():
    """Runs that need no more memory than this many MiB, however long a line or a name is: the command, its litmus text,
    standard input, which is also in the file `input`, and the room."""
    sb = Path(SB).read_bytes()
    record = b"ztso-schedule 2\na0 store 0 0 1\n"
    yield ["check", "text"], sb, record + b"\0" * (64 * MIB) + b"\n" + record, 24
    # two harts count until the third one stores, so there are many outcomes, each with a line of the name's length
    waits, stores = ["L: addi x7,x7,1", "lw x8,0(x6)", "beq x8,x0,L"], ["sw x5,0(x6)"]
    length = 30
    columns = [waits + [""] * (length - 3), waits + [""] * (length - 3), ["nop"] * (length - 1) + stores]
    rows = "".join("|".join(cells) + ";\n" for cells in zip(*columns))
    name = "n" * 250_000
    text = f"RISCV X\n{{2:x5=1}}\nP0|P1|P2;\n{rows}exists ({name}=0 /\\ 0:x7=0 /\\ 1:x7=0)\n"
    yield ["try", "text", "--seed", "1", "--runs", "100", "--length", "400"], text.encode(), b"", 24
    # a certificate of 365 bytes, of a slot 2^28 bytes wide whose first four are written
    yield ["queue", "text", "--certificate", "input", "--written", "all"], *slot_of(1 << 28), 24
    # some thousand states whose stores reach the last words of memory, with an outcome that is found late and one that isn't there
    for asked in ("0:x8=2 /\\ 1:x8=2 /\\ 2:x8=2", "0:x8=3"):
        yield ["find", "text"], stores_to_last_words(asked), b"", 16


def slot_of(width):
    """A text that passes one word through a slot of this width, and its certificate."""
    text = b"""RISCV X
{ int head; int tail; int slot; 0:x5=1; }
 P0          | P1              ;
 sw x5,8(x0) | L: lw x5,0(x0)  ;
 sw x5,0(x0) | beq x5,x0,L     ;
             | lw x6,8(x0)     ;
exists (1:x6=0)
"""
    sends = ["open 0", "state 0", "reg 5 1", "share 0 0 1", "leaf 0", "to 1", "state 4", "reg 5 1", "share 0 0 1", "leaf 1", "to 2", "state 8",
             "share 0 1 0", "leaf 0"]
    receives = ["open 0", "state 0", "share 0 0 0", "leaf 0", "to 1 1*0", "state 4", "most 1", "reg 5 1*0", "share 0 0 1*0", "split 0 0", "leaf 0",
                "to 0", "leaf 0", "to 2", "state 8", "share 0 0 1", "leaf 0", "to 3", "state 12", "share 0 0 1", "leaf 0"]
    lines = ["ztso-queues 1", f"queue 0 1 0 4 4 8 1 {width} 1 0 1 0 4294967296 0", "hart", *sends, "hart", *receives]
    return text, "".join(f"{line}\n" for line in lines).encode()


def stores_to_last_words(asked):
    """Three harts that store two values to a word each, of the last three of memory, and then load the next one's twice."""
    opening = " ".join(f"{hart}:x5=1; {hart}:x9=2; {hart}:x6={16372 + 4 * hart}; {hart}:x7={16372 + 4 * ((hart + 1) % 3)};" for hart in range(3))
    rows = "".join("|".join([cell] * 3) + ";\n" for cell in ("sw x5,0(x6)", "sw x9,0(x6)", "lw x8,0(x7)", "lw x8,0(x7)"))
    return f"RISCV X\n{{{opening}}}\nP0|P1|P2;\n{rows}exists ({asked})\n".encode()


def channels(short):
    """Channels: the number of senders, the size of their rings and of their text."""
    for kind, least in ((ring.name, ring.least) for ring in RINGS.values()):
        for senders, wanted in ((1, None), (63, None), (64, refused(18))):
            yield ["channel", kind, "2", "schedule"], b"7\n" * senders, wanted
        for slots, wanted in ((least, None), (least - 1, refused(19)), (2**32 - 1, refused(20)),
                              (2**32, BAD_COMMAND_LINE)):
            yield ["channel", kind, str(slots), "schedule"], b"7\n", wanted
        for senders in (1, 2, 31, 62, 63) if short else range(1, 64):
            most = (16384 // senders - 16) // 4
            for slots, wanted in ((most, None), (most + 1, refused(20))):
                yield ["channel", kind, str(slots), "schedule", "--finish"], b"7\n" * senders, wanted
    # the two blocks of two slots have 24 of the 16,384 bytes each
    for words, wanted in [
            (["--base", "16336"], None), (["--base", "16340"], refused(20)), (["--base", "1"], refused(41)),
            (["--base", "4294967292"], refused(20)), (["--base", "4294967296"], BAD_COMMAND_LINE),
            (["--stride", "24"], None), (["--stride", "20"], refused(43)), (["--stride", "25"], refused(42)),
            (["--stride", "16360"], None), (["--stride", "16364"], refused(20)), (["--stride", "0"], refused(43)),
            (["--stride", "4294967292"], refused(20)), (["--stride", "4294967296"], BAD_COMMAND_LINE),
            (["--base", "4", "--stride", "16356"], None), (["--base", "8", "--stride", "16356"], refused(20))]:
        yield ["channel", "lamport", "2", "schedule", *words, "--finish"], b"7\n8\n", wanted
    for more, wanted in ((0, None), (1, refused(37))):
        yield ["channel", "lamport", "2", "schedule"], b"7\n" + b" " * (INPUT - 2 + more), wanted
    own = ["ring", SENDER, RECEIVER]
    for senders, wanted in ((1, None), (63, None), (64, refused(18))):
        yield [*own, "2", *DRAWN], b"7\n" * senders, wanted
    for slots, wanted in (("1", None), ("0", refused(19)), ("4092", None), ("4093", refused(20)), (str(2**32 - 1), refused(20)),
                          (str(2**32), BAD_COMMAND_LINE)):
        yield [*own, slots, *DRAWN], b"7\n", wanted
    for text, wanted in ((b"4294967295", None), (b"4294967296", refused(34, " at line 1"))):
        yield ["channel", "lamport", "2", "schedule"], text, wanted


def options(short):
    """Options at their ends and past them."""
    drawn = dict(zip(DRAWN[::2], DRAWN[1::2]))
    for name, values in [
            ("--seed", [("0", None), (str(2**64 - 1), None), (str(2**64), BAD_COMMAND_LINE), ("-1", BAD_COMMAND_LINE)]),
            ("--runs", [("1", None), ("100000", None), ("0", BAD_COMMAND_LINE), ("100001", BAD_COMMAND_LINE)]),
            ("--length", [("0", None), ("1048576", None), ("1048577", BAD_COMMAND_LINE)]),
            ("--skip", [("0", None), (str(2**64 - 1), None), (str(2**64), BAD_COMMAND_LINE)]),
            ("--jobs", [("1", None), ("64", None), ("0", BAD_COMMAND_LINE), ("65", BAD_COMMAND_LINE)]),
            ("--buffer", [("1", None), ("16", None), ("0", BAD_COMMAND_LINE), ("3", BAD_COMMAND_LINE),
                          ("17", BAD_COMMAND_LINE), ("32", BAD_COMMAND_LINE)])]:
        for value, wanted in values:
            if not (short and value in ("100000", "1048576")):
                options = {**drawn, name: value}
                words = [word for pair in options.items() for word in pair]
                yield ["try", SB, *words], b"", wanted
                yield ["ring", SENDER, RECEIVER, "2", *words], b"7\n", wanted
                yield ["callers", CALLERS, *QUEUE, *words], b"", wanted
    queue = dict(zip(QUEUE[::2], QUEUE[1::2]))
    # a block of 136 bytes, or of 128 and 4 a slot from byte 1,024 on
    for name, values in [
            ("--base", [("16248", None), ("16252", NO_BLOCK), ("2", NO_BLOCK), (str(2**32 - 4), NO_BLOCK), (str(2**32), BAD_COMMAND_LINE)]),
            ("--slots", [("1", None), ("0", NO_BLOCK), ("3808", None), ("3809", NO_BLOCK), (str(2**32 - 1), NO_BLOCK),
                         (str(2**32), BAD_COMMAND_LINE)]),
            ("--sender", [("0", None), ("64", BAD_COMMAND_LINE), ("-1", BAD_COMMAND_LINE)]),
            ("--receiver", [("1", None), ("64", BAD_COMMAND_LINE)]),
            ("--kind", [("lamport", None), ("cached", NO_SEND), ("own", BAD_COMMAND_LINE)])]:
        for value, wanted in values:
            words = [word for pair in {**queue, name: value}.items() for word in pair]
            yield ["callers", CALLERS, *words, *DRAWN], b"", wanted
    for value, wanted in [("0", None), ("10000000", None), ("10000001", BAD_COMMAND_LINE), ("-1", BAD_COMMAND_LINE)]:
        yield ["threads", SB, "--turns", value], b"", wanted


def hold(runs, kind, text, words, stdin, wanted):
    """Holds a run against what is wanted here, and against the reference. Where the text is a file's, the words name
    it `text`."""
    runs.put({"schedule": NONE + b"a0*3 l0\n", "text": text})
    came = runs.run(words, stdin)
    right = came == wanted if wanted else came[0] in (0, 1) and not came[1]
    if words[0] == "threads":
        right = right and (wanted is not None or runs.is_answer_of_threads(words, came))
    else:
        right = right and came == runs.reference(words, stdin)
    runs.hold(kind, right, f"{came[:2]}, wanted {wanted}", words, stdin[:200])


def is_long(text, words, stdin, wanted):
    """Whether a row's run is among the largest: it isn't refused before it runs, and has so many bytes or names so many events."""
    asked = b" ".join([text[:200], stdin[:200], *map(str.encode, words)])
    sizes = [len(text), len(stdin), *(int(count) for count in COUNT.findall(asked) if len(count) < 8)]
    return (wanted is None or wanted == refused(40)) and max(sizes) >= LONG


def rows(short):
    """What `hold` takes, for each limit; a short run leaves out the largest runs."""
    for kind, text, words, stdin, wanted in every_row(short):
        if not (short and is_long(text, words, stdin, wanted)):
            yield kind, text, words, stdin, wanted


def every_row(short):
    for text, wanted in tests():
        yield "litmus", text, ["run", "text", "schedule"], b"", wanted
    for text, wanted in schedules():
        yield "schedules", text, ["replay", SB, "text"], b"", wanted
    for text, wanted in records():
        for command in ("replay", "move"):
            yield "records", text, [command, SB, "text"], b"", wanted
    for text, wanted in finished():
        yield "shrink", text, ["shrink", SB, "text"], b"", wanted
    for text, wanted in shown():
        yield "show", text, ["show", "--steps", "text"], b"", wanted
    for words, stdin, wanted in inputs():
        yield words[0], b"", words, stdin, wanted
    for words, stdin, wanted in channels(short):
        yield "channels", b"", words, stdin, wanted
    for words, stdin, wanted in options(short):
        yield "options", b"", words, stdin, wanted


def hold_in_memory(runs, words, text, stdin, room):
    """Holds a run in an address space of this many MiB against the reference."""
    runs.put({"schedule": NONE, "text": text, "input": stdin})
    limit = (room * MIB, room * MIB)
    came = runs.run(words, stdin, preexec_fn=lambda: resource.setrlimit(resource.RLIMIT_AS, limit))
    wanted = runs.reference(words, stdin)
    runs.hold("in little memory", came == wanted, f"wanted {brief(wanted)}, came {brief(came)}", words, stdin[:200])


def hold_long_run(runs):
    """Four harts that store in a loop make some 600,000 events, most of them apart from their like: a schedule that is too
    large to be read, as a rule."""
    columns = "|".join(["L: sw x5,0(x6)"] * 4), "|".join(["j L"] * 4)
    words = ["threads", "text"]
    runs.put({"text": f"RISCV X\n{{}}\nP0|P1|P2|P3;\n{columns[0]};\n{columns[1]};\nexists (x=0)\n".encode()})
    came = runs.run(words)
    is_short = len(came[2].partition(b"hart 0 ")[0]) <= INPUT
    runs.hold("threads", came == refused(37) or is_short and runs.is_answer_of_threads(words, came), brief(came), words)


def hold_long_way(runs, wider, wanted):
    """A hart waits before each fence for its store to land, so its way has `l0 a0*2` for each of the 96 pairs of a turn, and
    once `l0 a0*4`; before the first turn 29 pairs more, of which some have eight instructions between, `a0*10`: as many bytes as
    `run` reads again, and one more."""
    pair = ["sw x5,0(x6)", "fence rw,rw"]
    first = [cell for at in range(29) for cell in (*pair, *["nop"] * (8 * (at < wider)))]
    cells = [*first, "L: sw x5,0(x6)", "fence rw,rw", *pair * 95, "addi x7,x7,-1", "bnez x7,L"]
    runs.put({"text": litmus(cells=cells, items="0:x7=1365", condition="exists (0:x7=0)")})
    words = ["find", "text"]
    came = runs.run(words)
    runs.hold("find", came == wanted if wanted else not came[0] and len(came[2]) == INPUT, brief(came), words)
    if not wanted:
        runs.put({"way": came[2]})
        again = runs.run(["run", "text", "way"])
        runs.hold("find", again[0] == 0 and again[2].endswith(b"Holds\n"), brief(again), ["run", "text", "way"])


def part(runs):
    runs.side_by_side(hold, rows(runs.short))
    runs.side_by_side(hold_long_way, [(5, None), (6, refused(37))])
    runs.side_by_side(hold_in_memory, in_little_memory())
    hold_long_run(runs)
    runs.counts("limits", KINDS)
