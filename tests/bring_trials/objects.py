"""What is read of objects, without a compiler: by listings, debugging information and first bytes that are written by hand."""

import re
import subprocess
import sys
import tempfile
from pathlib import Path
from types import SimpleNamespace

from bring_parts import ROOT, Refused, arguments, dwarf, fields, functions, instructions, linkable, litmus_texts, memory, questions
from bring_parts import objects as tried
from bring_parts.instructions import TEXT, Instruction
from bring_parts.objects import Symbol
from bring_trials.counting import run, write

sys.path.insert(0, str(ROOT / "cases"))

from kit import terminal  # noqa: E402

# compressed instructions as objdump writes them, and the ones of 32 bits that the manual says they are
EXPANDED = [
    ("c.lwsp", "x1,12(x2)", "lw x1,12(x2)"), ("c.swsp", "x8,8(x2)", "sw x8,8(x2)"), ("c.lw", "x10,4(x11)", "lw x10,4(x11)"),
    ("c.j", "100004", "jal x0,100004"), ("c.jal", "100004", "jal x1,100004"), ("c.jr", "x1", "jalr x0,0(x1)"),
    ("c.jalr", "x5", "jalr x1,0(x5)"), ("c.beqz", "x10,100004", "beq x10,x0,100004"), ("c.bnez", "x10,100004", "bne x10,x0,100004"),
    ("c.li", "x10,-3", "addi x10,x0,-3"), ("c.lui", "x10,0xfffe1", "lui x10,0xfffe1"), ("c.addi", "x10,-1", "addi x10,x10,-1"),
    ("c.addi16sp", "x2,-32", "addi x2,x2,-32"), ("c.addi4spn", "x10,x2,16", "addi x10,x2,16"), ("c.slli", "x10,0x3", "slli x10,x10,0x3"),
    ("c.mv", "x10,x11", "add x10,x0,x11"), ("c.sub", "x10,x11", "sub x10,x10,x11"), ("c.andi", "x10,7", "andi x10,x10,7"),
    ("c.ebreak", "", "ebreak"), ("c.unimp", "", "c.unimp "), ("c.flw", "f8,0(x10)", "c.flw f8,0(x10)"), ("lw", "x5,0(x6)", "lw x5,0(x6)"),
]
# of `lla a0, x; lw a1, x`: data at 2050, from code at 0x100000; both halves of each pair come to `lui` and a low part
PLACES = ["auipc\tx10,0xfff01", "addi\tx10,x10,-2046", "auipc\tx11,0xfff01", "lw\tx11,-2054(x11)"]
RELOCATIONS = {TEXT: ("R_RISCV_PCREL_HI20", 2050, "x"), TEXT + 4: ("R_RISCV_PCREL_LO12_I", TEXT, ".L0"),
               TEXT + 8: ("R_RISCV_PCREL_HI20", 2050, "x"), TEXT + 12: ("R_RISCV_PCREL_LO12_I", TEXT + 8, ".L1")}
ABSOLUTE = ["lui x10,0x1", "addi x10,x10,-2046", "lui x11,0x1", "lw x11,-2046(x11)"]
# code with labels, each without a type or with the bytes of its function; what hart P0 reaches, or why it is refused
CODES = [
    ("what follows its end", {"P0": 0, "P1": 16}, ["addi\tx10,x0,1", "jalr\tx0,0(x1)", "addi\tx0,x0,0", "unimp", "jalr\tx0,0(x1)"],
     {"P0": 2}, {}),
    ("it runs on into P1", {"P0": 0, "P1": 4}, ["addi\tx10,x0,1", "jalr\tx0,0(x1)"], "a.s:1: P0 runs on into P1", {}),
    ("it runs on past its end", {"P0": 0}, ["jal\tx1,100000"], "a.s:1: P0 runs on past its end", {}),
    ("it runs on into another function", {"P0": 0, "f": 4}, ["jal\tx1,100004", "jalr\tx0,0(x1)"], {"P0": 2, "f": 1}, {}),
    ("a call at the end of a compiler's function", {"P0": 0, "P1": 4}, ["jal\tx1,100008", "jalr\tx0,0(x1)", "jalr\tx0,0(x1)"],
     {"P0": 1, "function at 0x8": 1}, {"P0": 4}),
    ("a label inside", {"P0": 0, "again": 4}, ["addi\tx5,x0,3", "addi\tx5,x5,-1", "bne\tx5,x0,100004", "jalr\tx0,0(x1)"], {"P0": 4}, {}),
    ("a place after another function", {"P0": 0, "P1": 8}, ["beq\tx0,x0,10000c", "jalr\tx0,0(x1)", "jalr\tx0,0(x1)", "addi\tx10,x0,3",
                                                           "jalr\tx0,0(x1)"], {"P0": 2, "place at 0xc": 2}, {}),
]
# a namespace `std` with a class template's one member; app::q of that type, a static taken apart, and P0(int, app::q *)
INFORMATION = """
  Compilation Unit @ offset 0x0:
 <0><c>: Abbrev Number: 1 (DW_TAG_compile_unit)
 <1><10>: Abbrev Number: 2 (DW_TAG_base_type)
    <11>   DW_AT_byte_size   : 4
    <12>   DW_AT_name        : (indexed string: 0x7): int
 <1><20>: Abbrev Number: 3 (DW_TAG_namespace)
    <21>   DW_AT_name        : std
 <2><22>: Abbrev Number: 4 (DW_TAG_structure_type)
    <23>   DW_AT_byte_size   : 4
 <3><24>: Abbrev Number: 5 (DW_TAG_member)
    <25>   DW_AT_name        : _M_i
    <26>   DW_AT_type        : <0x10>
    <27>   DW_AT_data_member_location: 0
 <3><28>: Abbrev Number: 0
 <2><29>: Abbrev Number: 0
 <1><30>: Abbrev Number: 3 (DW_TAG_namespace)
    <31>   DW_AT_name        : app
 <2><32>: Abbrev Number: 4 (DW_TAG_class_type)
    <33>   DW_AT_byte_size   : 12
 <3><34>: Abbrev Number: 5 (DW_TAG_inheritance)
    <35>   DW_AT_type        : <0x22>
    <36>   DW_AT_data_member_location: 0
 <3><37>: Abbrev Number: 5 (DW_TAG_member)
    <38>   DW_AT_name        : tail
    <39>   DW_AT_type        : <0x22>
    <3a>   DW_AT_data_member_location: 4
 <3><3b>: Abbrev Number: 5 (DW_TAG_member)
    <3c>   DW_AT_name        : shared
    <3d>   DW_AT_type        : <0x10>
    <3e>   DW_AT_external    : 1
    <3f>   DW_AT_declaration : 1
 <3><40>: Abbrev Number: 5 (DW_TAG_member)
    <41>   DW_AT_name        : low
    <42>   DW_AT_type        : <0x10>
    <43>   DW_AT_data_member_location: 8
 <3><44>: Abbrev Number: 0
 <2><45>: Abbrev Number: 6 (DW_TAG_variable)
    <46>   DW_AT_name        : q
    <47>   DW_AT_linkage_name: _ZN3app1qE
    <48>   DW_AT_type        : <0x32>
 <2><49>: Abbrev Number: 0
 <1><50>: Abbrev Number: 6 (DW_TAG_variable)
    <51>   DW_AT_specification: <0x45>
    <52>   DW_AT_location    : 5 byte block: 3 4 0 0 0 	(DW_OP_addr: 4)
 <1><53>: Abbrev Number: 6 (DW_TAG_variable)
    <54>   DW_AT_name        : s
    <55>   DW_AT_type        : <0x32>
    <56>   DW_AT_location    :	(DW_OP_piece: 4; DW_OP_addrx <0x1>; DW_OP_piece: 4; DW_OP_addr: 20; DW_OP_piece: 4)
 <1><60>: Abbrev Number: 7 (DW_TAG_pointer_type)
    <61>   DW_AT_type        : <0x32>
 <1><62>: Abbrev Number: 8 (DW_TAG_subprogram)
    <63>   DW_AT_name        : P0
    <64>   DW_AT_low_pc      : 0x100000
 <2><65>: Abbrev Number: 9 (DW_TAG_formal_parameter)
    <66>   DW_AT_name        : n
    <67>   DW_AT_type        : <0x10>
 <2><68>: Abbrev Number: 9 (DW_TAG_formal_parameter)
    <69>   DW_AT_name        : p
    <6a>   DW_AT_type        : <0x60>
 <2><6b>: Abbrev Number: 0
"""
ADDRESSES = "  For compilation unit at offset 0x0:\n\tIndex\tAddress\n\t0:\t00000010\n\t1:\t00000018\n"
# first bytes of files, and what is said of each
HEADS = [
    (b"", "no ELF object"), (b"int P0", "no ELF object"), (b"\x7fELF\x01\x01", "no ELF object"), (b"BC\xc0\xde" + bytes(20), "without -flto"),
    (b"\x7fELF\x01\x02\x01" + bytes(9) + b"\x00\x01\x00\xf3", "an object with the highest byte of a number first: compile with"),
    (b"!<arch>\n" + bytes(20), "an archive"), (b"\x7fELF\x02\x01\x01" + bytes(9) + b"\x01\x00\xf3\x00", "an object of 64 bits: compile with"),
    (b"\x7fELF\x02\x01\x01" + bytes(9) + b"\x01\x00\x3e\x00", "an object for x86-64"),
    (b"\x7fELF\x01\x01\x01" + bytes(9) + b"\x01\x00\x28\x00", "an object for ARM"),
    (b"\x7fELF\x01\x01\x01" + bytes(9) + b"\x02\x00\xf3\x00", "a linked program"),
]
# a file's text, and the question in it: the test's name, settings, words and the condition
ASKED = [
    ("mine.cpp", "/* not here */ int x; // test other\n// init 0:n=3; x=1\n// exists (app::q.tail=1 /\\ 0:a0=0)\n",
     ("other", {(0, "n"): "3"}, {"x": ["1"]}, "exists (app::q.tail=1 /\\ 0:a0=0)")),
    ("mine.rs", "#![no_std]\nfn f<'a>(x: &'a u32) {}\n//! exists (0:a0=0)\n// forall (COUNT.value=2)\n",
     ("mine", {}, {}, "forall (COUNT.value=2)")),
    ("mine.s", "P0: li a0, 1 # one\n ret\n# init 0:a1=x\n# exists (0:a0=1)\n", ("mine", {(0, "a1"): "x"}, {}, "exists (0:a0=1)")),
    ("mine.S", "#define A 1\n#ifdef A\n#endif\n/* exists\n   (x=1) */\n", ("mine", {}, {}, "exists (x=1)")),
    ("ask.txt", "exists (1:a0=5)\n", ("ask", {}, {}, "exists (1:a0=5)")),
]
PLAIN = [("q", "q"), ("app::q", "q"), ("app::Pool<int, std::less<int>>::slots", "slots"), ("spin::COUNT", "COUNT"),
         ("f()::counter[abi:cxx11]", "counter"), ("(anonymous namespace)::x", "x")]


def listing(lines):
    return "/tmp/a.s:1\n" + "".join(f"  {TEXT + 4 * at:x}:\t{line}\n" for at, line in enumerate(lines))


def expansions(count):
    for name, operands, wanted in EXPANDED:
        made = instructions.expanded(Instruction(TEXT, name, operands, "", 0))
        count.told(f"{name} {operands}", f"{made.name} {made.operands}".rstrip() == wanted.rstrip(), f"{made}")
    made = [f"{each.name} {each.operands}" for each in instructions.absolute(instructions.listed(listing(PLACES)), RELOCATIONS)]
    count.told("addresses by auipc", made == ABSOLUTE, str(made))
    chain = "/tmp/lib.h:9\ninlined by /tmp/a.c:4 (P0)\n  100000:\tlui\tx10,0x0\ninlined by /tmp/a.c:5 (P0)\n  100004:\tlui\tx11,0x0\n" \
        "/tmp/lib.h:12\n  100008:\tlui\tx12,0x0\n"
    for sources, wanted in ((["a.c"], ["a.c:4", "a.c:5", "lib.h:12"]), ([], ["lib.h:9", "lib.h:9", "lib.h:12"])):
        made = [each.where() for each in instructions.listed(chain, sources)]
        count.told(f"lines of {sources}", made == wanted, str(made))


def own_headers(count):
    """The lines of a header of the author's, and not those of a compiler's library, which may be there too."""
    with tempfile.TemporaryDirectory() as folder:
        own, library = write(folder, "ring.hpp", "x\n"), Path(folder, "library/core")
        library.mkdir(parents=True)
        chain = f"{write(library, 'lib.rs', 'x')}:1\n inlined by {own}:4 (f)\n inlined by {folder}/a.cpp:5 (P0)\n  100000:\tlui\tx10,0x0\n"
        made = [(each.where(), each.path) for each in instructions.listed(chain, ["a.cpp"])]
        count.told("lines of one's own header", made == [("ring.hpp:4", str(own))], str(made))


def codes(count):
    """What hart P0 reaches."""
    for name, labels, lines, wanted, sizes in CODES:
        symbols = [Symbol(TEXT + at, sizes.get(label, 0), "FUNC" if label in sizes else "NOTYPE", "1", label, label)
                   for label, at in labels.items()]
        image = SimpleNamespace(symbols=symbols, code=instructions.listed(listing(lines)), check_defined=lambda code: None)
        harts = [each for each in symbols if each.name.startswith("P")]
        try:
            made = {function: len(code) for function, code in functions.of_hart(image, harts[0], harts).items()}
        except Refused as refused:
            made = str(refused)
        is_good = made == wanted or isinstance(made, str) and isinstance(wanted, str) and made.startswith(wanted)
        count.told(f"a hart's functions: {name}", is_good, f"{made}, and {wanted} is wanted")


def information(count):
    """Names of parts, pieces of objects, and parameters."""
    known = dwarf.Information(INFORMATION, ADDRESSES)
    parts = fields.Parts(known)
    made = [(part.at, part.name) for part in parts.of_variable("_ZN3app1qE", "q", 4, 12)]
    count.told("parts of a class", made == [(0, "q"), (4, "q.tail"), (8, "q.low")], str(made))
    made = [[(part.at, part.name) for part in parts.of_variable("s.1", "s", at, 4)] for at in (16, 24, 32)]
    count.told("parts of what was taken apart", made == [[], [(0, "s.tail")], [(0, "s.low")]], str(made))
    count.told("what was taken apart", (parts.is_apart("s.0", 24), parts.is_apart("_ZN3app1qE", 4)) == (True, False), "")
    function = known.function("P0")
    made = [(name, kind.tag) for name, kind in known.parameters(function)]
    count.told("parameters", made == [("n", "base_type"), ("p", "pointer_type")], str(made))
    symbol = Symbol(TEXT, 4, "FUNC", "1", "P0", "P0")
    hart, asked = arguments.Hart(0, symbol, function), SimpleNamespace(settings={(0, "n"): "3", (1, "n"): "4"})
    registers, pointed = arguments.opened(hart, asked, known)
    count.told("what registers open as", (registers, [*pointed]) == ({10: "3", 11: "p"}, ["p"]), f"{registers} {pointed}")
    said = refusal(arguments.opened, hart, SimpleNamespace(settings={}), known)
    count.told("a parameter without a value", said == "P0's parameter n is no pointer and has no value: write `init 0:n=1`", said)
    untyped = arguments.Hart(0, symbol, None)
    for lines, wanted in ((["add\tx10,x10,x11", "jalr\tx0,0(x1)"], "P0 reads a1, and nothing says"), (["addi\tx11,x0,1", "add\tx10,x10,x11"], ""),
                          (["jal\tx1,100010", "add\tx5,x12,x10", "jalr\tx0,0(x1)", "unimp", "jalr\tx0,0(x1)"], ""),
                          (["beq\tx10,x0,100008", "addi\tx13,x0,1", "add\tx10,x13,x0", "jalr\tx0,0(x1)"], "")):
        said = refusal(arguments.check_set, untyped, {10: "3"}, instructions.listed(listing(lines)))
        count.told(f"what is read: {lines[0]}", wanted in said and bool(wanted) == bool(said), said)


def refusal(call, *words):
    """What a call refuses, or nothing."""
    try:
        call(*words)
    except Refused as refused:
        return str(refused)
    return ""


def questions_in(count):
    for name, text, wanted in ASKED:
        asked = questions.of_text(text, name)
        made = asked.name, asked.settings, asked.words, f"{asked.ending.kind} {wanted[3].partition(' ')[2]}"
        lefts = [left in wanted[3] for left in asked.ending.lefts()]
        count.told(f"the question in {name}", made == wanted and all(lefts) and lefts, f"{made} {asked.ending.lefts()}")
    for plain, wanted in PLAIN:
        count.told(f"the short name of {plain}", memory.short(plain) == wanted, memory.short(plain))
    image = SimpleNamespace(data=lambda: [(4 + 4 * at, size, Symbol(4 + 4 * at, size, "OBJECT", "2", f"n{at}", plain))
                                          for at, (plain, size) in enumerate((("near::q", 4), ("far::q", 4), ("far::tail", 4), ("far::list", 8)))])
    placed, longer = memory.objects_of(image, fields.Parts(dwarf.Information("")))
    words = memory.Memory([0] * 6, placed, longer)
    made = [refusal(words.named, text, "") or words.named(text, "") for text in ("near::q", "far::q", "tail", "far::tail", "far::list[1]")]
    count.told("two objects of one name", made == ["near__q", "far__q", "tail", "tail", "list_1"], f"{made} {words.names}")


def harts_of_objects(count):
    """A function that is only called, as P2, is none that the harts' names leave out; and what a comment says doesn't end it."""
    symbols = [Symbol(TEXT, 4, "FUNC", "1", "P0", "P0"), Symbol(0, 0, "NOTYPE", "UND", "P2", "P2")]
    image = SimpleNamespace(symbols=symbols, function={"P0": symbols[0]}.get)
    said = refusal(litmus_texts.harts_of, image, SimpleNamespace(function=lambda name: None), [])
    count.told("a function P2 of another file", not said, said)
    said = litmus_texts.comment_of(["cc -DEND=*)"])
    count.told("a comment's end in a comment", said == "(* cc -DEND=* ) *)", said)


def object_of(length, relocations):
    """An object with a section of data at a byte's boundary, and one of two lengths, of one byte and of two, which these relocations of symbols at
    0, 20 and 320 give."""
    data, symbols = b"\x05" + length, b"".join(linkable.SYMBOL.pack(0, value, 0, 0, 0, 1) for value in (0, 20, 320))
    table = b"".join(linkable.RELOCATION.pack(at, symbol << 8 | kind, addend) for at, symbol, kind, addend in relocations)
    parts = [(1, 2, data[:1], 0, 0, 1), (1, 0, data[1:], 0, 0, 1), (linkable.RELOCATIONS, 0, table, 4, 2, 4), (2, 0, symbols, 0, 0, 4)]
    content, headers = bytes(52), [linkable.HEADER.pack(*[0] * 10)]
    for kind, flags, part_of, link, info, align in parts:
        headers.append(linkable.HEADER.pack(0, kind, flags, 0, len(content), len(part_of), link, info, align, 0))
        content += part_of
    content = bytearray(content + b"".join(headers))
    linkable.TABLE.pack_into(content, 0, len(content) - 40 * len(headers), 40, len(headers))
    return bytes(content)


def lengths(count):
    """Lengths that relocations give are written in the bytes that stand there, and the relocations give nothing further; data begin at a word."""
    pairs = [(0, 1, linkable.LENGTH_TO, 7), (0, 0, linkable.LENGTH_FROM, 2), (1, 2, linkable.LENGTH_TO, 0), (1, 1, linkable.LENGTH_FROM, 0), (0, 1, 1, 9)]
    made = bytes(linkable.rewritten(bytearray(object_of(b"\x7f\xff\x7f", pairs))))
    _, data, length, relocations, _ = linkable.sections_in(made)
    written = made[length.begin:length.begin + length.size].hex()
    count.told("lengths", written == "19ac02", written)  # 20 + 7 - 2, and 300 in groups of 7 bits
    kinds = [linkable.RELOCATION.unpack_from(made, at)[1:] for at in range(relocations.begin, relocations.begin + relocations.size, 12)]
    count.told("their relocations", kinds == [(0, 0)] * 4 + [(1 << 8 | 1, 9)], str(kinds))
    count.told("data at a word", (data.align, length.align) == (4, 1), str(data))
    for name, content in (("a length that never ends", object_of(b"\xff" * 3, pairs)), ("no label to begin with", object_of(b"\x00" * 3, pairs[1:])),
                          ("a symbol that isn't there", object_of(b"\x00" * 3, [(0, 99, linkable.LENGTH_TO, 0)])), ("a part", made[:-50])):
        with tempfile.TemporaryDirectory() as folder:
            said = refusal(linkable.made_of, write(folder, "x.o", content), Path(folder, "made"))
        count.told(f"an object with {name}", said.startswith("its table of sections, or a relocation, leads out"), said)


# a compiler of Rust that takes two seconds for each library
SLOW_RUSTC = """#!/bin/sh
case "$*" in
--version) echo rustc 1.99.0 ;;
*target-list) echo riscv32imac-unknown-none-elf ;;
*target-spec-json*) echo '{"arch": "riscv32"}' ;;
*) sleep 2 ;;
esac
"""


def seen_at_work(count):
    """tools/make-rust-core says what it compiles, and at a terminal for how long it has."""
    with tempfile.TemporaryDirectory() as folder:
        rustc = write(folder, "rustc", SLOW_RUSTC)
        rustc.chmod(0o755)
        Path(folder, "library/core").mkdir(parents=True)
        write(folder, "library/core/Cargo.toml", 'edition = "2021"\n')
        words = [ROOT / "tools/make-rust-core", Path(folder, "core"), "--rustc", rustc, "--sources", folder]
        said = [f"make-rust-core: compiling {name} of rustc 1.99.0, by {rustc}" for name in ("core", "compiler_builtins")]
        status, printed, error = run("make-rust-core", *words[1:])
        count.told("make-rust-core says what it compiles", (status, error.splitlines()) == (0, said) and "core of rustc 1.99.0" in printed, printed + error)
        done, written = terminal.run(list(map(str, words)), stdout=subprocess.DEVNULL)
        shown, gone = terminal.shown(written)
        lines = shown.decode().splitlines()
        count.told("and at a terminal for how long", done.returncode == 0 and len(lines) == 2 and all(
            re.fullmatch(f"{re.escape(line)}: [1-9] s", each) for line, each in zip(said, lines)), f"{shown} {gone}")


def part(count):
    seen_at_work(count)
    lengths(count)
    expansions(count)
    own_headers(count)
    codes(count)
    information(count)
    questions_in(count)
    harts_of_objects(count)
    with tempfile.TemporaryDirectory() as folder:
        for head, wanted in HEADS:
            said = refusal(tried.check, write(folder, "x.o", head))
            count.told(f"a file that begins with {head[:20]}", wanted in said, said)
