"""How an answer differs from the wanted one, in the escapes of case files."""

import difflib

from . import escapes

# lines of one stream that are compared and printed, and characters of a line
COMPARED, SHOWN, WIDTH = 400, 24, 160


def difference(wanted, came):
    """The lines that say how two answers (status, standard error, standard output) differ."""
    lines = [f"status {came[0]}, wanted {wanted[0]}"] if came[0] != wanted[0] else []
    for name, text, other in zip(("standard error", "standard output"), wanted[1:], came[1:]):
        if text != other:
            lines += [f"{name}: - is wanted, + came", *changed_lines(text, other)]
    return lines


def changed_lines(wanted, came):
    """A small unified difference of two texts."""
    wanted, came = visible_lines(wanted), visible_lines(came)
    same = 0
    while same < min(len(wanted), len(came)) and wanted[same] == came[same]:
        same += 1
    # the lines far above the first difference don't help
    above = max(same - 3, 0)
    cut = [lines[above:above + COMPARED] for lines in (wanted, came)]
    lines = list(difflib.unified_diff(*cut, n=3, lineterm=""))[2:]
    lines = [moved(line, above) if line.startswith("@@") else shortened(line) for line in lines]
    more = len(lines) - SHOWN
    return lines[:SHOWN] + ([f".. {more} more lines"] if more > 0 else [])


def visible_lines(text):
    *lines, last = text.split(b"\n")
    return [escapes.shown(line) for line in lines] + ([escapes.shown(last) + "\\"] if last else [])


def moved(head, above):
    """The head of a part of a difference, as it is where this many lines stand above."""
    def numbers(span):
        line, comma, count = span[1:].partition(",")
        return f"{span[0]}{int(line) + above}{comma}{count}"

    marks = head.split(" ")
    return " ".join([marks[0], numbers(marks[1]), numbers(marks[2]), marks[3]])


def shortened(line):
    return line if len(line) <= WIDTH else f"{line[:WIDTH]} .. {len(line) - WIDTH} more"
