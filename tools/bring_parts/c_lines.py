"""Pictures of runs with the comment of each instruction's cell beside its row: with texts of `--lines` that is its line of
the source. A last line names what a picture, which has no room for long names, calls by its address."""

import re
import textwrap
from html import escape

from bring_parts import answer

import schedules
from machine import Machine

ROW = re.compile(r" *([0-9]+)(?: |$)")
NOTE = re.compile(r"((?:[\w.+-]+:)?[0-9]+)(?:: (.*))?")
ADDRESS = re.compile(r"(?<![\w@])@([0-9]+)(?![\w])")
WIDTH = 110
# what stands in a cell's comment for what would end it
STANDINS = (("|", "¦"), (";", "⁏"), ("(*", "(∗"), ("*)", "∗)"))
# an instruction of which no line of a source is known, and what is said of it
NO_LINE, UNKNOWN = re.compile(r"at 0x[0-9a-f]+"), " (no debugging information)"
WRITTEN = str.maketrans("¦⁏∗", "|;*")
# of a picture as SVG: a row's number, the picture's size, and how wide a character is, how high a row, how wide the margin, and
# how far below the picture's end the first further line stands
ROW_TEXT = re.compile(r"<text [^>]*? y='([0-9]+)' class='quiet' id='row-([0-9]+)'>")
SIZE = re.compile(r"(<(?:svg|rect) .*?width=')([0-9]+)(' height=')([0-9]+)'")
CHARACTER, ROW_HEIGHT, MARGIN, LINE = 8, 22, 16, 5
# how a row is marked
MARK = ".mark{fill:#cf222e;fill-opacity:.18}"


def in_cell(line):
    """A line of a source as a cell's comment has it: without braces and semicolons at its ends, except those of what is open in it."""
    text = re.sub(r"[^\x20-\x7e]", " ", line).lstrip(" ;{}").rstrip(" ;{")
    while text.endswith("}") and text.count("}") > text.count("{"):
        text = text[:-1].rstrip(" ;{")
    for mark, other in STANDINS:
        text = text.replace(mark, other)
    return " ".join(text.split())


def notes_of(test):
    """For each hart the comment of each of its instructions, as its author wrote it. One that is the number of a C line gets the
    line's text, which from-c writes once."""
    for column in test.columns:
        comments = [cell.partition("#")[2].strip().translate(WRITTEN) for _, cell, _, words in column for _ in range(words)]
        shapes = [NOTE.fullmatch(comment) for comment in comments]
        lines = {shape[1]: shape[2] for shape in shapes if shape and shape[2]}
        yield [f"{shape[1]}: {lines[shape[1]]}" if shape and shape[1] in lines else comment + UNKNOWN * bool(NO_LINE.fullmatch(comment))
               for shape, comment in zip(shapes, comments)]


def rows_of(test, buffer, steps):
    """For each row's number the hart and the note of its instruction."""
    machine, notes = Machine(test, buffer), list(notes_of(test))
    state, row, found = machine.opening, 0, {}
    for (letter, hart), _ in steps:
        place = state[0][hart][0] // 4 if hart < len(test.codes) else 0
        _, is_entry, state = machine.step(state, (letter, hart))
        row += is_entry
        if is_entry and letter == "a" and place < len(notes[hart]) and notes[hart][place]:
            found[row] = hart, notes[hart][place]
    return found


def shown_notes(rows, notes):
    """What stands beside each of these rows: the hart and the note, of which only the number where the hart goes on in one
    line, and what isn't known once for each hart."""
    shown, before = {}, {}
    for row in rows:
        hart, note = notes.get(row, (None, ""))
        shape = NOTE.fullmatch(note)
        if note:
            shown[row] = f"P{hart} {shape[1] if shape and note == before.get(hart) else note}"
            if before.get(hart, "").endswith(UNKNOWN):
                shown[row] = shown[row].removesuffix(UNKNOWN)
        before[hart] = note
    return shown


def legend(picture, test):
    """Lines with the names of what the picture calls by addresses."""
    names = {address: name for name, address in test.locations.items()}
    asked = sorted({int(shape[1]) for shape in ADDRESS.finditer(picture)})
    named = [(at, names[at - at % 4] + f"+{at % 4}" * (at % 4 > 0)) for at in asked if at - at % 4 in names]
    # a blank of a name's own doesn't part lines
    return [line.replace("\xa0", " ") for line in textwrap.wrap(", ".join(f"@{at}\xa0is\xa0{name}" for at, name in named), WIDTH, break_long_words=False)]


def beside(picture, notes, lines):
    """The picture with what stands beside its rows, and these lines below it."""
    rows = picture.split("\n\n")[1].split("\n")
    shapes = [ROW.match(row) for row in rows]
    shown = shown_notes([int(shape[1]) for shape in shapes if shape], notes)
    width = max(map(len, rows))
    made = [f"{row.ljust(width)}   {shown[int(shape[1])]}" if shape and int(shape[1]) in shown else row for row, shape in zip(rows, shapes)]
    return picture.replace("\n".join(rows), "\n".join(made), 1) + "".join(f"{line}\n" for line in lines)


def svg_text(x, y, words):
    """A text of a picture as SVG."""
    return (f"<text xml:space='preserve' lengthAdjust='spacingAndGlyphs' textLength='{CHARACTER * len(words)}' x='{x}' y='{y}' class='quiet'>"
            f"{escape(words)}</text>\n")


def beside_svg(picture, notes, lines):
    """The same of a picture as SVG, which becomes as wide and as high as that needs."""
    shown = shown_notes([int(shape[2]) for shape in ROW_TEXT.finditer(picture)], notes)
    size = SIZE.search(picture)
    right, bottom = int(size[2]), int(size[4])
    made = ROW_TEXT.sub(lambda shape: (svg_text(right, shape[1], shown[int(shape[2])]) if int(shape[2]) in shown else "") + shape[0], picture)
    below = "".join(svg_text(MARGIN, bottom + LINE + ROW_HEIGHT * number, line) for number, line in enumerate(lines))
    width = max([right + CHARACTER * max(map(len, shown.values()), default=0) + MARGIN * bool(shown),
                 *(2 * MARGIN + CHARACTER * len(line) for line in lines)])
    made = SIZE.sub(lambda shape: f"{shape[1]}{width}{shape[3]}{bottom + ROW_HEIGHT * len(lines)}'", made, count=2)
    return made.replace("</svg>", f"{below}</svg>")


def marked_svg(picture, marks):
    """A picture as SVG with a band over each row that is in `marks`, and beside it the words that are there."""
    size = SIZE.search(picture)
    right, width = int(size[2]), int(size[2]) + CHARACTER * max(map(len, marks.values()), default=0) + MARGIN * bool(marks)

    def marked(shape):
        words = marks.get(int(shape[2]))
        band = f"<rect class='mark' x='{MARGIN}' y='{int(shape[1]) - MARGIN}' width='{width - 2 * MARGIN}' height='{ROW_HEIGHT}'/>\n"
        return (band + svg_text(right, shape[1], words) if words else "") + shape[0]
    made = ROW_TEXT.sub(marked, picture)
    made = SIZE.sub(lambda shape: f"{shape[1]}{width}{shape[3]}{shape[4]}'", made, count=2)
    return made.replace("</style>", f"{MARK}</style>", 1)


def picture(program, path, test, schedule, buffer=4, options=()):
    """The picture of a schedule's run of the test in a file."""
    drawn = answer(program, "chart", path, "/dev/stdin", "--buffer", buffer, *options, text=schedule)
    notes = rows_of(test, buffer, schedules.read_steps(schedule))
    return (beside_svg if "--svg" in options else beside)(drawn, notes, legend(drawn, test))
