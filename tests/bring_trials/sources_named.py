"""What sources call lines, objects and functions, without a compiler: line tables, variables that only their own file sees, members of unions, what is
made before main, and the halves of an `#ifdef`."""

from types import SimpleNamespace

from bring_parts import Refused, c_source, compilers, dwarf, fields, instructions, line_tables, made_before, memory
from bring_parts.instructions import TEXT
from bring_parts.objects import Symbol
from bring_trials import objects

# of a table of version 5 that begins without naming its file, whose number 1 is the header's: as gcc 12 has it and objdump dumps it, in part;
# then one of clang's, with sums, and one of version 4, which objdump reads right
TABLES = """
Raw dump of debug contents of section .debug_line:

  Offset:                      0
  DWARF Version:               5

 The Directory Table (offset 0x22, lines 2, columns 1):
  Entry	Name
  0	(indirect line string, offset: 0): /home/mine
  1	(indirect line string, offset: 0x8): lib

 The File Name Table (offset 0x30, lines 3, columns 2):
  Entry	Dir	Name
  0	0	(indirect line string, offset: 0x21): ring.c
  1	1	(indirect line string, offset: 0x28): ring.h
  2	0	(indirect line string, offset: 0x2f): ring.c

 Line Number Statements:
  [0x00000055]  Set column to 63
  [0x00000057]  Extended opcode 2: set Address to 0x100000
  [0x0000005e]  Special opcode 9: advance Address by 0 to 0x100000 and Line by 4 to 5
  [0x00000061]  Advance Line by 2 to 7
  [0x00000063]  Advance PC by fixed size amount 4 to 0x100004
  [0x00000066]  Copy (view 1)
  [0x00000067]  Set File Name to entry 2 in the File Name Table
  [0x00000069]  Advance Line by -7 to 0
  [0x0000006b]  Advance PC by fixed size amount 4 to 0x100008
  [0x0000006e]  Copy (view 2)
  [0x0000006f]  Advance Line by 3 to 3
  [0x00000071]  Advance PC by fixed size amount 4 to 0x10000c
  [0x00000074]  Copy (view 3)
  [0x00000075]  Advance PC by fixed size amount 4 to 0x100010
  [0x00000078]  Extended opcode 1: End of Sequence

  Offset:                      0x7c
  DWARF Version:               5

 The Directory Table (offset 0x9e, lines 1, columns 1):
  Entry	Name
  0	(indirect line string, offset: 0): /home/mine

 The File Name Table (offset 0xa8, lines 1, columns 3):
  Entry	Dir	MD5				Name
  0	0 0x9bee0bfbba52df670af39ec173531a22	(indirect line string, offset: 0xd): lib/other.c

 Line Number Statements:
  [0x0000005c]  Set File Name to entry 0 in the File Name Table
  [0x0000005e]  Extended opcode 2: set Address to 0x100010
  [0x00000065]  Special opcode 7: advance Address by 0 to 0x100010 and Line by 2 to 3
  [0x00000071]  Advance PC by fixed size amount 4 to 0x100014
  [0x00000074]  Extended opcode 1: End of Sequence

  Offset:                      0xf0
  DWARF Version:               4

 The Directory Table is empty.

 The File Name Table (offset 0x2d):
  Entry	Dir	Time	Size	Name
  1	0	0	0	old.c

 Line Number Statements:
  [0x0000004e]  Extended opcode 2: set Address to 0x100014
  [0x00000055]  Special opcode 8: advance Address by 0 to 0x100014 and Line by 3 to 4
  [0x00000118]  Extended opcode 1: End of Sequence
"""
HEADER, MAIN, OTHER = "/home/mine/lib/ring.h", "/home/mine/ring.c", "/home/mine/lib/other.c"
PLACES_OF = [(0xffffc, None), (0x100000, (HEADER, 5)), (0x100004, (HEADER, 7)), (0x100008, (HEADER, 7)), (0x10000c, (MAIN, 3)),
             (0x100010, (OTHER, 3)), (0x100014, None)]
# what only its file sees by gcc, without the linker's name; by gcc and by clang a union without a name; a union of halves; by clang a static of f
UNSEEN = """
 <1><10>: Abbrev Number: 2 (DW_TAG_base_type)
    <11>   DW_AT_byte_size   : 4
    <12>   DW_AT_name        : int
 <1><14>: Abbrev Number: 2 (DW_TAG_base_type)
    <15>   DW_AT_byte_size   : 2
    <16>   DW_AT_name        : short
 <1><20>: Abbrev Number: 4 (DW_TAG_union_type)
    <23>   DW_AT_byte_size   : 4
 <2><24>: Abbrev Number: 5 (DW_TAG_member)
    <25>   DW_AT_name        : first
    <26>   DW_AT_type        : <0x10>
 <2><27>: Abbrev Number: 5 (DW_TAG_member)
    <28>   DW_AT_name        : second
    <29>   DW_AT_type        : <0x10>
 <2><2a>: Abbrev Number: 0
 <1><30>: Abbrev Number: 4 (DW_TAG_union_type)
    <33>   DW_AT_byte_size   : 2
 <2><34>: Abbrev Number: 5 (DW_TAG_member)
    <35>   DW_AT_name        : low
    <36>   DW_AT_type        : <0x14>
 <2><37>: Abbrev Number: 5 (DW_TAG_member)
    <38>   DW_AT_name        : bits
    <39>   DW_AT_type        : <0x14>
 <2><3a>: Abbrev Number: 0
 <1><50>: Abbrev Number: 6 (DW_TAG_variable)
    <51>   DW_AT_name        : pair
    <52>   DW_AT_type        : <0x30>
    <53>   DW_AT_location    : 5 byte block: 3 4 0 0 0 	(DW_OP_addr: 4)
 <1><54>: Abbrev Number: 6 (DW_TAG_variable)
    <55>   DW_AT_type        : <0x20>
    <56>   DW_AT_location    : 5 byte block: 3 8 0 0 0 	(DW_OP_addr: 8)
 <1><57>: Abbrev Number: 6 (DW_TAG_variable)
    <58>   DW_AT_name        : ga
    <59>   DW_AT_linkage_name: _Z2ga
    <5a>   DW_AT_type        : <0x10>
    <5b>   DW_AT_location    : 5 byte block: 3 c 0 0 0 	(DW_OP_addr: c)
 <1><5c>: Abbrev Number: 6 (DW_TAG_variable)
    <5d>   DW_AT_name        : gb
    <5e>   DW_AT_linkage_name: _Z2ga
    <5f>   DW_AT_type        : <0x10>
    <60>   DW_AT_location    : 5 byte block: 3 c 0 0 0 	(DW_OP_addr: c)
 <1><61>: Abbrev Number: 6 (DW_TAG_variable)
    <62>   DW_AT_name        : count
    <63>   DW_AT_type        : <0x10>
    <64>   DW_AT_location    : 5 byte block: 3 10 0 0 0 	(DW_OP_addr: 10)
"""
DATA = [(4, "_ZN12_GLOBAL__N_14pairE", "(anonymous namespace)::pair"), (8, "_ZL5first", "first"), (12, "_Z2ga", "ga"), (16, "f.count", "f.count")]
UNSEEN_PLACES = {"pair.low": "pair_low", "pair.bits": "pair_low", "first": "first", "second": "first", "ga": "ga", "gb": "ga", "count": "count",
                 "f::count": "count"}
# what a code before main writes: a member, one by an AMO, one that a called function is given, and none of the last: a call leaves x15 unknown
MAKES = ["lui\tx15,0x0", "addi\tx15,x15,4", "sw\tx0,0(x15)", "amoswap.w\tx0,x14,(x15)", "addi\tx10,x15,4", "jal\tx1,100100", "sw\tx0,8(x15)",
         "jalr\tx0,0(x1)"]


def lines_of_tables(count):
    lines = line_tables.Lines(TABLES)
    for address, wanted in PLACES_OF:
        count.told(f"the line at {address:#x}", lines.at(address) == wanted, str(lines.at(address)))
    made = instructions.listed("ring.c:5\n  100000:\tlui\tx10,0x0\n", ["ring.h"], lines.at)
    count.told("the line of a listing's instruction", made[0].where() == "ring.h:5", made[0].where())


def unseen(count):
    """What only its own file sees has places by its address, and so has each member of a union."""
    parts = fields.Parts(dwarf.Information(UNSEEN))
    image = SimpleNamespace(data=lambda: [(at, 2 if at == 4 else 4, Symbol(at, 4, "OBJECT", "2", name, plain)) for at, name, plain in DATA])
    placed, longer = memory.objects_of(image, parts)
    words = memory.Memory([0] * 5, placed, longer)
    for text, wanted in UNSEEN_PLACES.items():
        made = objects.refusal(words.named, text, "") or words.named(text, "")
        count.told(f"the place of {text}", made == wanted, made)
    count.told("as its author writes it", memory.as_written("app::(anonymous namespace)::f(int)::n") == "app::f::n", "")


def made_early(count):
    """Which members of an object the code before main writes."""
    code = instructions.listed(objects.listing(MAKES))
    image = SimpleNamespace(code=code, relocations={}, values=[0] * 8)
    walk = made_before.Walk(image)
    walk.function(TEXT)
    whole = memory.Placed(4, 16, "q", [fields.Part(at, 4, f"q.{name}") for at, name in ((0, "head"), (4, "inner"), (8, "left"))])
    told = made_before.members(whole, walk)
    count.told("members that are made", told == ": its head and inner get values then, and its left none", told)


HALVES = "int x;\n#ifdef A // #else\nint P0(int n) { return n; }\n#else\nvoid P0(void) { x = 1; }\n#endif\n// exists (x=1)\n"


def halves(count):
    """A hart's function in both halves of an `#ifdef` is that which the compiler takes."""
    for taken, wanted in (((0, 2), ["n"]), ((1, 2), [])):
        def preprocessed(code, taken=taken):
            return "\n".join(f"ztso_group_{number}" for number in taken if f"ztso_group_{number}\n" in code)
        made = [each.name for each in c_source.read(HALVES, "a.c", preprocessed).functions[0].parameters]
        count.told(f"groups {taken}", made == wanted, str(made))
    said = objects.refusal(c_source.read, HALVES, "a.c")
    count.told("two functions without a compiler", said == "there are two functions P0", said)
    for line, wanted in (("lib/q.h:1:10: error: 'string.h' file not found with <angled> include; use \"quotes\" instead", "string.h"),
                         ("q.h:1:10: fatal error: string.h: No such file or directory", "string.h"), ("q.h:1: error: `x' undeclared", None)):
        count.told(f"the header of {line}", compilers.missing_header(Refused("", [line])) == wanted, "")


def part(count):
    lines_of_tables(count)
    unseen(count)
    made_early(count)
    halves(count)
