"""What C calls the words of memory, and C's lines beside a picture: by texts that are written by hand, without a
compiler."""

import re
import tempfile
from pathlib import Path
from xml.dom import minidom

from bring_parts import Refused, c_lines, dwarf, fields, instructions, making, memory
from bring_trials.counting import run, write

import litmus

# struct { atomic int head; struct { short low; } in[2]; struct empty {} none[1000][1000]; int m[2][2]; } q; the
# `name` of one has its place in a table of strings before it, as two compilers write them
LISTING = """
 <0><c>: Abbrev Number: 1 (DW_TAG_compile_unit)
    <d>   DW_AT_name        : (indirect line string, offset: 0xe): t.c
 <1><10>: Abbrev Number: 2 (DW_TAG_base_type)
    <11>   DW_AT_byte_size   : 4
 <1><12>: Abbrev Number: 2 (DW_TAG_base_type)
    <13>   DW_AT_byte_size   : 2
 <1><14>: Abbrev Number: 3 (DW_TAG_atomic_type)
    <15>   DW_AT_type        : <0x10>
 <1><16>: Abbrev Number: 4 (DW_TAG_structure_type)
    <17>   DW_AT_byte_size   : 4
 <2><18>: Abbrev Number: 5 (DW_TAG_member)
    <19>   DW_AT_name        : low
    <1a>   DW_AT_type        : <0x12>
    <1b>   DW_AT_data_member_location: 0
 <2><1c>: Abbrev Number: 0
 <1><1d>: Abbrev Number: 6 (DW_TAG_array_type)
    <1e>   DW_AT_type        : <0x16>
 <2><1f>: Abbrev Number: 7 (DW_TAG_subrange_type)
    <20>   DW_AT_count       : 2
 <2><21>: Abbrev Number: 0
 <1><22>: Abbrev Number: 4 (DW_TAG_structure_type)
    <23>   DW_AT_byte_size   : 0
 <1><24>: Abbrev Number: 6 (DW_TAG_array_type)
    <25>   DW_AT_type        : <0x22>
 <2><26>: Abbrev Number: 7 (DW_TAG_subrange_type)
    <27>   DW_AT_upper_bound : 999999999
 <2><28>: Abbrev Number: 7 (DW_TAG_subrange_type)
    <29>   DW_AT_upper_bound : 999999999
 <2><2a>: Abbrev Number: 0
 <1><2b>: Abbrev Number: 6 (DW_TAG_array_type)
    <2c>   DW_AT_type        : <0x10>
 <2><2d>: Abbrev Number: 7 (DW_TAG_subrange_type)
    <2e>   DW_AT_upper_bound : 1
 <2><2f>: Abbrev Number: 7 (DW_TAG_subrange_type)
    <30>   DW_AT_upper_bound : 1
 <2><31>: Abbrev Number: 0
 <1><32>: Abbrev Number: 4 (DW_TAG_structure_type)
    <33>   DW_AT_byte_size   : 28
 <2><34>: Abbrev Number: 5 (DW_TAG_member)
    <35>   DW_AT_name        : (indirect string, offset: 0xa8): head
    <36>   DW_AT_type        : <0x14>
    <37>   DW_AT_data_member_location: 0
 <2><38>: Abbrev Number: 5 (DW_TAG_member)
    <39>   DW_AT_name        : (indexed string: 0x7): in
    <3a>   DW_AT_type        : <0x1d>
    <3b>   DW_AT_data_member_location: 4
 <2><3c>: Abbrev Number: 5 (DW_TAG_member)
    <3d>   DW_AT_name        : none
    <3e>   DW_AT_type        : <0x24>
    <3f>   DW_AT_data_member_location: 12
 <2><40>: Abbrev Number: 5 (DW_TAG_member)
    <41>   DW_AT_name        : m
    <42>   DW_AT_type        : <0x2b>
    <43>   DW_AT_data_member_location: 12
 <2><44>: Abbrev Number: 0
 <1><45>: Abbrev Number: 8 (DW_TAG_variable)
    <46>   DW_AT_name        : q
    <47>   DW_AT_type        : <0x32>
    <48>   DW_AT_location    : 5 byte block: 3 0 0 0 0 	(DW_OP_addr: 0)
 <1><49>: Abbrev Number: 9 (DW_TAG_array_type)
    <4a>   DW_AT_type        : <0x49>
 <1><4b>: Abbrev Number: 8 (DW_TAG_variable)
    <4c>   DW_AT_name        : circle
    <4d>   DW_AT_type        : <0x49>
"""
PARTS = [(0, 4, "q.head"), (4, 2, "q.in[0].low"), (8, 2, "q.in[1].low"), (12, 4, "q.m[0][0]"), (16, 4, "q.m[0][1]"),
         (20, 4, "q.m[1][0]"), (24, 4, "q.m[1][1]")]
NAMES = ["null", "q_head", "q_in_0_low", "q_in_1_low", "q_m_0_0", "q_m_0_1", "q_m_1_0", "q_m_1_1"]

TEXT = """RISCV T
{
0:x6=x;
}
 P0                                 | P1                ;
 addi x5,x0,1 # 4: x = 1            | nop # a comment   ;
 sw x5,0(x6)  # 4                   | li x5,1234567 # b.rs:7: y = 1 ;
 lw x7,0(x6)  # 5: r0 = x           |                   ;
exists (0:x7=1)
"""
SCHEDULE = "ztso-schedule 1\na0 a1 a0*2 l0 a1*2\n"
# what stands beside the rows, with all rows and with those of memory
BESIDE = {(): ["P0 4: x = 1", "P1 a comment", "P0 4", "P0 5: r0 = x", None, "P1 b.rs:7: y = 1", "P1 b.rs:7"],
          ("--memory",): ["P0 4: x = 1", "P0 5: r0 = x", None]}
# columns for these have no room
WIDE = TEXT.replace("x6=x", "x6=location").replace("exists", """ amoswap.w.aqrl x10,x11,(x6) | amomaxu.w.aqrl x10,x11,(x12) ;
 sh x10,0(x6) | sh x10,1000(x12) ;
 sh x10,0(x6) | sh x10,1000(x12) ;
exists""")


def names(count):
    """The parts of objects, and the names of words by them."""
    parts = fields.Parts(dwarf.Information(LISTING))
    of_q = parts.of_variable("q", "q", 0, 28)
    came = [(part.at, part.size, part.name) for part in of_q]
    count.told("parts", came == PARTS, str(came))
    count.told("no parts", [parts.of_variable(name, name, 0, 28) for name in ("circle", "none")] == [[], []], "")
    words = memory.Memory([0] * 8, [memory.Placed(4, 28, "q", of_q)])
    count.told("words by their parts", words.names == NAMES, str(words.names))
    asked = [words.named(text, "") for text in ("q.head", "q.in[1].low", "q.m[1][0]", "q", "q[2]", "q_m_1_1")]
    wanted = ["q_head", "q_in_1_low", "q_m_1_0", "q_head", "q_in_1_low", "q_m_1_1"]
    count.told("words that C names", asked == wanted, str(asked))
    count.told("small words", words.small == {"q.in[0].low", "q.in[1].low"}, str(words.small))
    try:
        refused = words.named("q.in", "asks for")
    except Refused as error:
        refused = str(error)
    count.told("what is no word", refused == "asks for q.in, which is no shared word: there are q.head, q.in[0].low, q.m[0][0]", refused)
    asked = [words.address(text) for text in ("q.head", "q", "q.in", "q.in[1].low", "q.m", "q.m[1][0]", "q+6", "q_m_1_1", "null", "12")]
    count.told("places that C names", asked == [4, 4, 8, 12, 16, 24, 10, 28, 0, 12], str(asked))
    bare = memory.Memory([0] * 8, [memory.Placed(4, 28, "q")], is_described=False)
    for text, wanted in (("q.tail", "there are q; compile with -g, or say q+BYTES"), ("r.tail", "there are q")):
        try:
            refused = bare.address(text)
        except Refused as error:
            refused = str(error)
        count.told(f"a part without debugging information, {text}", refused == f"{text} is no place of the program: {wanted}", str(refused))
    for text in ("q.tail", "q+x", "40x"):
        try:
            refused = words.address(text)
        except Refused as error:
            refused = str(error)
        wanted = f"{text} is no place of the program: there are q.head, q.in[0].low, q.m[0][0]"
        count.told(f"what is no place, {text}", refused == wanted, str(refused))


# lines of a source, and how they are shown
SHOWN = [("  for (int i = 0; i < 2; i++) {", "for (int i = 0; i < 2; i++)"), ("\t} else {", "else"), ("if (x) { y = a | b; }", "if (x) { y = a | b; }"),
         ("return (*p)(&q);  }", "return (*p)(&q)"), ("x = (int *)p; // é", "x = (int *)p; //")]
# the comments of a hart's cells, and what stands beside rows of them
UNKNOWN = [("at 0x0", "P0 at 0x0 (no debugging information)"), ("at 0x1c", "P0 at 0x1c"), ("4: x = 1", "P0 4: x = 1")]


def lines_in_cells(count):
    """A line of a source goes through a cell's comment to who reads it; of code without lines that is said once."""
    for line, wanted in SHOWN:
        cell = c_lines.in_cell(line)
        test = litmus.read(f"RISCV t\n{{ }}\n P0 ;\n nop # 4: {cell} ;\nexists (x=0)\n")
        count.told(f"the line {line!r}", next(c_lines.notes_of(test)) == [f"4: {wanted}"], cell)
    rows = "".join(f" nop # {comment} ;\n" for comment, _ in UNKNOWN)
    notes = next(c_lines.notes_of(litmus.read(f"RISCV t\n{{ }}\n P0 ;\n{rows}exists (x=0)\n")))
    shown = c_lines.shown_notes(range(len(notes)), {at: (0, note) for at, note in enumerate(notes)})
    count.told("code without lines", list(shown.values()) == [wanted for _, wanted in UNKNOWN], str(shown))


# names for which a picture has no room, and what is said of their addresses
LONG = TEXT.replace("0:x6=x;", "int first; int message_length; 0:x6=message_length;")
NAMED = "@4 is message_length"


def beside(printed):
    """What stands beside each row of a picture."""
    rows = printed.split("\n\n")[1].split("\n")[1:]
    notes = [row.partition("   P") for row in rows]
    return [f"P{note}" if mark else None for _, mark, note in notes]


def as_svg(count, printed, error):
    """The picture as SVG has the same beside its rows, and the long names below it, all of it within its size."""
    picture = minidom.parseString(printed).documentElement
    texts = [(int(each.getAttribute("x")), int(each.getAttribute("y")), each.firstChild.data, each.getAttribute("id"))
             for each in picture.getElementsByTagName("text")]
    rows = {y: name for _, y, _, name in texts if name}
    notes = {rows.get(y): words for _, y, words, name in texts if re.match(r"P[01] \S", words) and not name}
    wanted = {f"row-{at}": note for at, note in enumerate(BESIDE[()], 1) if note}
    count.told("lines beside a picture as SVG", not error and notes == wanted, f"{notes}{error}")
    width, height = (int(picture.getAttribute(name)) for name in ("width", "height"))
    back = picture.getElementsByTagName("rect")[0]
    size = [int(back.getAttribute(name)) for name in ("width", "height")] == [width, height]
    count.told("what a picture as SVG has room for", size and all(x + 8 * len(words) <= width and y < height for x, y, words, _ in texts)
               and texts[-1][2] == NAMED and max(y for _, y, _, _ in texts[:-1]) < height, f"{width} {height} {texts[-3:]}")


def of_old_header(count, folder):
    """A line of a header that isn't in UTF-8."""
    header = write(folder, "old.h", b"// \xff\nx = 1;\n")
    note = making.noted({"a.c": ""})()(instructions.Instruction(instructions.TEXT, "sw", "x5,0(x6)", "old.h", 2, str(header)))
    count.told("a line of an old header", note == "old.h:2: x = 1", note)


def part(count, program):
    names(count)
    lines_in_cells(count)
    with tempfile.TemporaryDirectory() as folder:
        of_old_header(count, folder)
        file, schedule = write(folder, "t.litmus", TEXT), write(folder, "t.schedule", SCHEDULE)
        for words, wanted in BESIDE.items():
            status, printed, error = run("chart-lines", file, schedule, "--program", program, *words)
            picture = "\n".join(row.rpartition("   P")[0].rstrip() or row for row in printed.split("\n"))
            count.told(f"lines beside a picture {words}", (status, error) == (0, "") and beside(printed) == wanted, printed)
            count.told(f"its rows {words}", "x := 1" in picture and printed.endswith("\nHolds: exists (0:x7=1)\n"), printed)
        status, printed, error = run("chart-lines", write(folder, "l.litmus", LONG), schedule, "--program", program)
        count.told("long names", (status, error) == (0, "") and "@4 := 1 " in printed and printed.endswith(f"\n{NAMED}\n"), error + printed)
        status, printed, error = run("chart-lines", Path(folder, "l.litmus"), schedule, "--svg", "--program", program)
        as_svg(count, printed, error)
        status, printed, error = run("chart-lines", write(folder, "w.litmus", WIDE), schedule, "--program", program)
        hint = printed.endswith("\nhint: --memory leaves out rows of instructions that only compute or jump\n")
        count.told("rows with only a number", (status, error) == (0, "") and hint, error + printed)
        for text, why in ((SCHEDULE[2:], "refused 27"), (SCHEDULE + "\x1b", "refused 28 at byte")):
            status, printed, error = run("chart-lines", file, write(folder, "bad", text), "--program", program)
            count.told(f"a schedule that is refused by {why}", (status, printed) == (2, "") and why in error, error + printed)
