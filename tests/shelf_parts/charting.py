"""Draws the witnesses of the shelf with `ztso chart`, and prints the widths of the pictures.

tests/shelf chart [PROGRAM] [TEST ..]

PROGRAM is the one that ./ztso runs unless it is named; TEST is a name like sb, and all are taken if none
is named. It fails if a picture isn't the one that tools/reference draws, which stops if two texts of a
row meet; if its rows are wider than 110 characters for one or two harts, else than 20 and 40 for each
hart or than 200; or if the columns of the witness's first half stand elsewhere than in the whole, except
in the tests of which a load takes its bytes from several places.
"""

from collections import Counter

import shelf_parts as shelf

SEVERAL_SOURCES = {"bytes-of-a-word", "halfword-over-two-stores"}


def drawn(program, entry, values):
    """The width of a witness's picture, and what is wrong with it."""
    events = entry.witnesses()[values]
    picture, reference = (chart(each, entry, events) for each in (program, shelf.REFERENCE))
    harts = len(entry.test.codes)
    width, most = max(map(len, picture.split("\n\n")[1].splitlines())), 110 if harts <= 2 else min(20 + 40 * harts, 200)
    moves = entry.name not in SEVERAL_SOURCES and heads(picture) != heads(chart(program, entry, events[:len(events) // 2]))
    wrong = (["isn't the reference's"] * (picture != reference) + [f"is wider than {most}"] * (width > most)
             + ["has other columns than its first half"] * moves)
    return width, [f"{entry.case_name(values)} {each}" for each in wrong]


def heads(picture):
    return picture.split("\n\n")[1].splitlines()[0]


def chart(program, entry, events):
    """The picture of a test's run by these events."""
    with shelf.schedule_of(events) as schedule:
        return shelf.output(program, "chart", entry.path, schedule)


def main(words):
    program, entries = shelf.program_and_tests(words)
    rows = [(entry, values) for entry in entries for values in sorted(entry.witnesses())]
    answers = shelf.answers("chart", lambda *row: drawn(program, *row), rows)
    for width, count in sorted(Counter(width for width, _ in answers).items()):
        print(f"{count:4} of width {width}")
    failed = [line for _, wrong in answers for line in wrong]
    print("\n".join([*failed, f"{len(rows)} witnesses, {len(failed)} failed"]))
    return 1 if failed or not rows else 0
