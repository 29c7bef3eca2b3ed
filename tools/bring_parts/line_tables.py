"""The line tables of an image, as objdump dumps them: the place in a source of each address. `objdump -l` misreads a table of DWARF 5 that
doesn't begin by naming its file, as gcc 12's don't where a header's function comes first."""

import os
import re
from bisect import bisect_right

VERSION = re.compile(r"  DWARF Version: +([0-9]+)")
FOLDER = re.compile(r"  ([0-9]+)\t(?:\(indirect [^()]*\): )?(.+)")
FILE = re.compile(r"  ([0-9]+)\t([0-9]+)(?: 0x[0-9a-f]+)?\t(?:\(indirect [^()]*\): )?(.+)")
# what a statement sets: the file, the address, the line; and whether it makes a row or ends the rows
NAMES_FILE = re.compile(r"Set File Name to entry ([0-9]+) ")
MOVES, LINES = re.compile(r"(?:Address by \S+|PC by .*?|set Address) to (?:0x)?([0-9a-f]+)"), re.compile(r"Line by -?[0-9]+ to ([0-9]+)")
ROW, END = re.compile(r"Special opcode|Copy"), "Extended opcode 1:"
OF_VERSION = "5"


class Lines:
    """The places of the addresses that tables of version 5 have; those of other versions objdump reads right."""

    def __init__(self, dump):
        self.begins, self.places = [], []
        rows = sorted((each for table in dump.split("Raw dump of debug contents")[1:] for unit in re.split(r"(?m)^  Offset:", table)
                       for each in rows_of(unit)), key=lambda row: row[:2])
        for at, _, place in rows:
            self.begins.append(at)
            self.places.append(place)

    def at(self, address):
        """The file and line of an address, or None."""
        number = bisect_right(self.begins, address)
        return self.places[number - 1] if number else None


def rows_of(unit):
    """The rows of a unit's table: address, 1 or at an end of rows 0, and file and line or None."""
    head, _, statements = unit.partition(" Line Number Statements:")
    version = VERSION.search(head)
    if not version or version[1] != OF_VERSION:
        return
    files = files_of(head)
    at, file, line = 0, "1", 1
    for text in statements.splitlines():
        if END in text:
            yield at, 0, None
            at, file, line = 0, "1", 1
            continue
        named, moved, counted = NAMES_FILE.search(text), MOVES.search(text), LINES.search(text)
        file = named[1] if named else file
        at = int(moved[1], 16) if moved else at
        line = int(counted[1]) if counted else line
        # line 0 is of no line
        if ROW.search(text) and line and file in files:
            yield at, 1, (files[file], line)


def files_of(head):
    """The paths of a table's files by their numbers."""
    folders, _, files = head.partition(" The File Name Table")
    folders = dict(row.groups() for row in map(FOLDER.fullmatch, folders.partition(" The Directory Table")[2].splitlines()) if row)
    return {row[1]: os.path.join(folders.get("0", ""), folders.get(row[2], ""), row[3]) for row in map(FILE.fullmatch, files.splitlines()) if row}
