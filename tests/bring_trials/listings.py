"""Columns from listings of objdump, written by hand: what a compiler may make, without one."""

import re

from bring_parts import Refused, c_source, c_tests, columns, functions, inputs, instructions, memory, queues
from bring_parts.fields import Part
from bring_parts.memory import Placed
from bring_parts.objects import Symbol
from bring_parts.queues import Call, Queue
from certify_parts.texts import Test

CALLS = """
00100000 <P0>:
P0():
/tmp/a.c:3
  100000:\tlui\tx15,0x0
  100004:\tfence\trw,w
  100008:\tsw\tx0,4(x15) # 4 <x>
/tmp/a.c:4
  10000c:\tauipc\tx1,0x0
  100010:\tjalr\tx1,16(x1) # 10001c <f>
  100014:\tbeq\tx10,x0,100018 <P0+0x18>
  100018:\tjalr\tx0,0(x1)

0010001c <f>:
f():
/tmp/a.c:9
  10001c:\taddi\tx10,x0,1
  100020:\tjalr\tx0,0(x1)
"""
MADE = ["lui x15,0", "fence rw,w", "sw x0,4(x15)", "jal x1,L6", "beq x10,x0,L5", "L5: jal x0,end",
        "L6: addi x10,x0,1", "jalr x0,0(x1)", "end:"]
FULL = ["lui x15,0", "sw x0,4(x15)", "jal x1,L5", "beq x10,x0,L4", "L4: jal x0,end", "L5: addi x10,x0,1",
        "jalr x0,0(x1)", "end:"]
QUEUE_CALLS = """
00100000 <P0>:
/tmp/a.c:3
  100000:\taddi\tx8,x0,4
  100004:\taddi\tx10,x8,0
  100008:\tjal\tx1,100030 <lamport_try_send>
  10000c:\tbeq\tx10,x0,100004 <P0+0x4>
  100010:\tlui\tx10,0x1
  100014:\taddi\tx10,x10,-64
  100018:\tjal\tx1,100040 <lamport_try_receive>
  10001c:\tbeq\tx10,x0,100024 <P0+0x24>
  100020:\tlw\tx8,0(x8)
  100024:\taddi\tx10,x8,0
  100028:\tjal\tx0,100030 <lamport_try_send>

00100030 <lamport_try_send>:
  100030:\tjalr\tx0,0(x1)

00100040 <lamport_try_receive>:
  100040:\tjalr\tx0,0(x1)
"""
# lines of P0, and what comes of it
COLUMNS = [
    (["addi\tx10,x0,1", "jalr\tx0,0(x1)"], ["addi x10,x0,1"]), (["jalr\tx0,0(x1)"], []),
    (["fence\tw,unknown", "amoswap.w.aqrl\tx0,x5,(x6)"], ["fence w,0", "amoswap.w.aqrl x0,x5,(x6)"]),
    (["pause", "jal\tx0,100000 <P0>"], ["L0: fence w,0", "jal x0,L0"]), (["jal\tx0,100000 <P0>"], ["L0: jal x0,L0"]),
    (["lr.w\tx5,(x6)"], "a.c:1: `lr.w x5,(x6)`: ztso has no LR and SC"),
    (["jalr\tx0,0(x15)"], "a jump to a computed place"), (["add\tx5,x5,x4"], "a thread-local variable"),
    (["mul\tx5,x5,x6"], "the M extension"), (["csrrw\tx0,cycle,x0"], "a control register"), (["unimp"], "unreachable"), (["wfi"], "privileged code"),
    (["c.lwsp\tx5,12(x2)"], "a.c:1: P0 takes arguments from the stack"),
    (["lw\tx5,0(x2)"], "a.c:1: P0 takes arguments from the stack"), (["jal\tx0,100400 <Q>"], "jumps to where no instruction"),
    (["jal\tx1,100000 <P0>", "jalr\tx0,0(x1)"], "a.c:1: P0 calls itself"), (["amoadd.d\tx5,x5,(x6)"], "32 bits"),
]
SOURCE = """// A question? test named
// init 0:n=3; 1:n=0x4u; 0:p=&x; 1:p=(int *)y
int P0(volatile int *p, int n) { int r0 = *p; *p = n; }
static inline void P1(volatile int *p, int n[2]) { /* int P2(void) { */ *p = *n; }
int x, y;
/* forall (0:r0=0 \\/ x=3) */
"""


def listed(lines):
    """A listing of P0 with these lines, and then its end."""
    lines = lines if lines[-1].startswith("jal") else [*lines, "jalr\tx0,0(x1)"]
    rows = "".join(f"  {0x100000 + 4 * at:x}:\t{line}\n" for at, line in enumerate(lines))
    return f"00100000 <P0>:\n/tmp/a.c:1\n{rows}"


class Listed:
    """An image by a listing: each name is a function's, and nothing is undefined."""
    undefined = ()

    def __init__(self, listing):
        self.code = instructions.listed(listing)
        heads = re.findall(r"^([0-9a-f]+) <(.+)>:$", listing, re.MULTILINE)
        ends = [int(at, 16) for at, _ in heads[1:]] + [self.code[-1].at + 4]
        self.symbols = [Symbol(int(at, 16), end - int(at, 16), "FUNC", "1", name, name) for (at, name), end in zip(heads, ends)]

    def check_defined(self, code):
        """Nothing is undefined."""

    def functions(self):
        """The functions that P0 reaches."""
        return functions.of_hart(self, self.symbols[0], self.symbols[:1])


def cells(listing, fences="all"):
    """The cells of P0, or what is refused."""
    try:
        return columns.column(Listed(listing).functions(), fences).cells
    except Refused as refused:
        return str(refused)


def sources(count):
    """A C file's parts, and what is compiled of it."""
    source = c_source.read(SOURCE, "a {b}.c")
    count.told("the source's names", (source.name, source.file) == ("a_{b}", "a__b_.c"), f"{source.name} {source.file}")
    blanked = [c_source.blanked("x (* y *) + (*z)", is_litmus) for is_litmus in (True, False)]
    count.told("herd's comments", blanked == ["x         + (*z)", "x (* y *) + (*z)"], str(blanked))
    settings = {(0, "n"): "3", (1, "n"): "0x4", (0, "p"): "x", (1, "p"): "y"}
    count.told("init", source.settings == settings, str(source.settings))
    kinds = [(each.typed, each.returns, len(each.parameters)) for each in source.functions]
    count.told("functions", kinds == [(True, True, 2), (True, False, 2)], str(kinds))
    results = c_tests.results_of(source)
    text = c_tests.c_text(source, results)
    count.told("a local is kept", results == [{"r0": "a0"}, {}] and text.count("result_a0") == 2, text)
    count.told("the code's lines", "#line 1 \"a__b_.c\"\n// A question" in text, text)
    for kind, wanted in (("void *", True), ("const void*const ", True), ("void **", False), ("int *", False)):
        source = c_source.read(f"int P0({kind}p) {{ return 0; }}\n// exists (0:a0=0)\n", "a.c")
        try:
            said = c_tests.c_text(source, c_tests.results_of(source))
        except Refused as refused:
            said = str(refused)
        count.told(f"a parameter {kind}", said.startswith("P0's parameter `p` is a void *: ") == wanted, said)
    words = memory.Memory([0, 7, 0, 0, 0, 0, 0], [Placed(4, 4, "x"), Placed(8, 8, "y.0"), Placed(16, 4, "y_0_1"), Placed(20, 4, "null")])
    words.open({"x": ["null"]})
    words.push_stack(0, 4)
    wanted = ["int null_; int x=null; int y_0; int y_0_1_; int y_0_1; int null; int word24; int stack0_0;"]
    count.told("words", words.items() == wanted, str(words.items()))
    names = [words.named(text, "") for text in ("x", "x[0]", "y_0_1", "null", "stack0_0")]
    count.told("names of words", names == ["x", "x", "y_0_1", "null", "stack0_0"], str(names))


def block_parts(name, begin=0, slots="slots"):
    """The parts of a queue with two slots that begins there."""
    return [Part(begin + at, 4, f"{name}{part}") for part, at in
            ((".head", 0), (".tail", 64), (f".{slots}[0]", 128), (f".{slots}[1]", 132))]


def queue_users(count):
    """The block that each call passes, and the harts that each queue of a kind has by that."""
    made = queues.calls_of(Listed(QUEUE_CALLS).functions())
    send, receive = "lamport_try_send", "lamport_try_receive"
    wanted = {Call(send, 4, None), Call(receive, 4032, None), Call(send, None, None)}
    count.told("the blocks of calls", made == wanted, str(made))
    two = [Placed(4, 192, "a", block_parts("a")), Placed(196, 192, "b", block_parts("b"))]
    for names, objects, calls, wanted in (
            ("one there, one back", two, [{(send, 4), (receive, 196)}, {(send, 196), (receive, 4)}],
             [", hart 0 sends, hart 1 receives", ", hart 1 sends, hart 0 receives"]),
            ("one of each", two, [{(send, 4)}, {(receive, 196)}], [", hart 0 sends", ", hart 1 receives"]),
            ("one of two, unknown", two, [{(send, None)}, {(receive, 4)}], [", hart 1 receives", ""]),
            ("the only one, unknown", two[:1], [{(send, None)}, {(receive, 4)}], [", hart 0 sends, hart 1 receives"]),
            ("two senders", two[:1], [{(send, 4)}, {(send, 4), (receive, 4)}], [", hart 1 receives"])):
        calls = [{Call(*call, 8) for call in each} for each in calls]
        said = [line.partition("2 slots")[2] for line in queues.lines(queues.among(objects, calls), calls)]
        count.told(f"a queue's harts: {names}", said == wanted, str(said))
    inside = Placed(64, 640, "app", [*block_parts("app.to[0]", 64), *block_parts("app.to[1]", 256), *block_parts("app.back", 448, "words_or_0"),
                                     Part(0, 4, "app.head"), Part(128, 4, "app.tail")])
    said = list(queues.lines(queues.among([inside], []), []))
    wanted = ["queue app.to[0]: Lamport's, block at 128, 2 slots", "queue app.to[1]: Lamport's, block at 320, 2 slots",
              "queue app.back: FastForward's, block at 512, 2 slots"]
    count.told("queues in a struct", said == wanted, str(said))
    calls = [{Call(send, 1024, 8)}, {Call("fastforward_try_receive", 96, 4), Call(receive, 1024, 8)}]
    pool = [Placed(64, 256, "pool")]
    found = queues.among(pool, calls)
    wanted = ["queue in pool + 32: FastForward's, block at 96, 1 slots, hart 1 receives",
              "queue at 1024: Lamport's, block at 1024, 2 slots, hart 0 sends, hart 1 receives"]
    count.told("queues that calls pass", list(queues.lines(found, calls)) == wanted, str(list(queues.lines(found, calls))))
    made = [(each.at, each.size, each.name) for each in queues.fixed(pool, found)]
    count.told("a queue at a fixed address", made == [(1024, 136, "q1024")], str(made))
    for block in (60, 4000):
        try:
            refused = str(list(queues.fixed(pool, [Queue("at", "slots", block, 2)])))
        except Refused as error:
            refused = str(error)
        count.told(f"a queue at {block}", "make it a global object" in refused, refused)


# parameters, and the storage for what they point to
STORED = [("int a[2]", "__typeof__(*(int *)0) a[2];\n"), ("volatile int a[static 3], int n", "__typeof__(*(volatile int *)0) a[3];\n"),
          ("int a[]", "__typeof__(*(int *)0) a;\n"), ("int *p", "__typeof__(*(int *)0) p;\n"), ("int n", "")]


def past_names(count):
    """Words past those that have names: they open as 0, a parameter may point there, and no condition asks for them."""
    words = memory.Memory([0] * 1030, [Placed(4, 4, "x"), Placed(4100, 4, "far"), Placed(4108, 8, "array")])
    made = (words.value("x", ""), words.value("far", ""), words.push_stack(0, 16), len(words.names), words.items()[-1].endswith("int word4092;"))
    count.told("words without names", made == ("x", "4100", 4136, 1024, True), str(made))
    ends = [Test("", [], {at: 0 for at in range(0, 4 * count_of, 4)}, {}).end() for count_of in (0, 8, 1023, 1024)]
    count.told("where a text's words end", ends == [0, 32, 4092, 16384], str(ends))
    for text in ("far", "array[1]"):
        try:
            said = words.named(text, "the condition asks for")
        except Refused as refused:
            said = str(refused)
        count.told(f"the word {text}", said.startswith(f"the condition asks for {text}, which lies past the 1024 words that ztso names"), said)
    for place, value, size, wanted in ((1029, 7, 0, "the word at 4116 opens as 7"), (0, 0, 0, ""),
                                       (0, 0, 16384, "5126 words of data and stacks: the machine has 4096")):
        tried = memory.Memory([0] * 1030, [])
        tried.values[place] = value
        tried.push_stack(0, size)
        try:
            said = tried.check_size() or ""
        except Refused as refused:
            said = str(refused)
        count.told(f"{size} bytes of stack, and {value} at {place}", wanted in said and bool(wanted) == bool(said), said)


# instructions of a hart, from one address on, those that become others where 0x10000000 has 8 bytes as an input and 0x10001000 one, and their operands; or
# what is refused
LUI, BACK = ("lui", "x15,0x10000"), ("jal", "x0,100000")
MOVED = [
    ([LUI, ("lbu", "x14,5(x15)"), ("sb", "x14,0(x15)"), BACK], {0: "x15,0x2"}),
    ([LUI, ("addi", "x13,x15,4"), ("lw", "x14,0(x13)"), BACK], {0: "x15,0x2"}),
    ([LUI, ("add", "x13,x0,x15"), ("amoswap.w", "x0,x14,(x13)"), BACK], {0: "x15,0x2"}),
    # a page that is reached from the one after it, and one from the one after that
    ([("lui", "x15,0x10001"), ("lbu", "x14,-4096(x15)"), ("lbu", "x14,0(x15)"), BACK], {0: "x15,0x3"}),
    ([("lui", "x15,0x10002"), ("lbu", "x14,-4096(x15)"), BACK], {0: "x15,0x4"}),
    # other constants stay, and so does an address of the program
    ([("lui", "x15,0x20000"), ("addi", "x14,x15,1"), BACK], {}),
    ([LUI, ("lbu", "x14,8(x15)"), BACK], "loads from 0x10000008, which no --input names: --input 0x10000008:1"),
    ([LUI, ("lw", "x14,5(x15)"), BACK], "loads from 0x10000005, which no --input names: --input 0x10000005:4"),
    ([LUI, ("sw", "x15,0(x15)"), BACK], "the address 0x10000000 is more than used"),
    ([LUI, ("sw", "x15,4(x8)"), BACK], "more than used"), ([LUI, ("add", "x14,x15,x13"), BACK], "more than used"),
    ([LUI, ("and", "x14,x13,x15"), BACK], "more than used"), ([LUI, ("bne", "x15,x13,100000"), BACK], "more than used"),
    ([LUI, ("amoswap.w", "x0,x15,(x13)"), BACK], "more than used"), ([LUI, ("addi", "x10,x15,0"), ("jalr", "x0,0(x1)")], "more than used"),
    # on one way another address, or none
    ([LUI, ("beq", "x14,x0,10000c"), ("addi", "x15,x15,4"), ("lbu", "x14,0(x15)"), BACK], "an address that isn't the same on each way"),
    ([("addi", "x15,x0,0"), ("beq", "x14,x0,10000c"), LUI, ("lbu", "x14,0(x15)"), BACK], "an address that isn't the same on each way"),
    # passed to a function, which keeps the caller's registers by the stack
    ([("lui", "x8,0x10000"), ("addi", "x10,x8,0"), ("jal", "x1,100014"), ("lbu", "x14,5(x8)"), BACK, ("sw", "x8,4(x2)"), ("lbu", "x14,5(x10)"),
      ("jalr", "x0,0(x1)")], {0: "x8,0x2"}),
    # and which leaves what was passed to it, or returns it
    ([("lui", "x10,0x10000"), ("jal", "x1,100010"), ("lbu", "x14,0(x10)"), BACK, ("sb", "x0,0(x10)"), ("jalr", "x0,0(x1)")],
     "an address that isn't the same on each way"),
    ([("lui", "x10,0x10000"), ("jal", "x1,100010"), ("addi", "x10,x0,1"), BACK, ("sb", "x0,0(x10)"), ("jalr", "x0,0(x1)")], {0: "x10,0x2"}),
]


def moved(code):
    """The operands that change, by their places, or what is refused."""
    words = memory.Memory([0] * 16, [Placed(4, 4, "x")])
    made = [instructions.Instruction(instructions.TEXT + 4 * at, name, operands, "a.c", at) for at, (name, operands) in enumerate(code)]
    # what stands after the jump back is a function of its own
    end = next((at for at, each in enumerate(code) if each == BACK), len(code)) + 1
    try:
        after = inputs.placed(["0x10000000:8", "0x10001000:1"], words).moved({"P0": made[:end], "f": made[end:]}, {})
    except Refused as refused:
        return str(refused)
    return {at: each.operands for at, (before, each) in enumerate(zip(made, [*after["P0"], *after["f"]])) if before != each}


def of_inputs(count):
    """Code whose device's addresses become those of memory; the bytes that inputs have; and that the hart which stores to them comes to each number."""
    for code, wanted in MOVED:
        made = moved(code)
        count.told(f"a device's address in {code}", made == wanted if isinstance(wanted, dict) else isinstance(made, str) and wanted in made, str(made))
    words = memory.Memory([0] * 16, [Placed(4, 4, "x"), Placed(8, 6, "buffer")])
    found = inputs.placed(["x", "8:3", "0x10000005:4"], words)
    count.told("the parts of inputs", [[*each.parts()] for each in found.found] == [[(4, 4)], [(8, 2), (10, 1)], [(12293, 1), (12294, 2), (12296, 1)]],
               str([[*each.parts()] for each in found.found]))
    for text, wanted in (("y", "y is no place of the program"), ("x:0", "1 to 1024 bytes"), ("x:1025", "1 to 1024 bytes"), ("60:8", "it lies past all data"),
                         ("0xfffffffc:5", "1 to 1024 bytes")):
        try:
            said = str(inputs.placed([text], words))
        except Refused as refused:
            said = str(refused)
        count.told(f"the input {text}", wanted in said, said)
    # of each power of two up to 2^16 its steps pass through all numbers; that it is so of 2^32 follows since 4 divides 5 - 1 and 1013 is odd
    number, seen = 0, set()
    for _ in range(1 << 16):
        number = (5 * number + 1013) % (1 << 16)
        seen.add(number)
    count.told("the numbers that a further hart stores", len(seen) == 1 << 16 and inputs.COUNTS == ["slli x6,x5,2", "add x5,x5,x6", "addi x5,x5,1013"],
               str(len(seen)))


def stored(count):
    for parameters, wanted in STORED:
        source = c_source.read(f"int P0({parameters}) {{ return 0; }}\n// exists (0:a0=0)\n", "a.c")
        count.told(f"storage for ({parameters})", c_tests.storage_of(source) == wanted, c_tests.storage_of(source))


def part(count):
    stored(count)
    of_inputs(count)
    past_names(count)
    queue_users(count)
    count.told("calls", cells(CALLS) == MADE, str(cells(CALLS)))
    count.told("calls, full fences", cells(CALLS, "full") == FULL, str(cells(CALLS, "full")))
    column = columns.column(Listed(CALLS).functions())
    count.told("calls return past the code", (column.returns, column.stack) == (32, 0), str(column))
    for lines, wanted in COLUMNS:
        made = cells(listed(lines))
        is_refused = isinstance(made, str)
        count.told(f"{lines}", made == wanted or is_refused and isinstance(wanted, str) and wanted in made, str(made))
    sources(count)
