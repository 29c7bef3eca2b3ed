"""Objects of 32-bit RISC-V written anew, as the image needs them and as binutils 2.40 takes them.

Each section of data begins at a word. The lengths in DWARF 5 are written out: clang 16 and later leaves them to the linker as differences of two
labels, by relocations that binutils knows from 2.41 on; before that the linker and objcopy die of them. Both labels lie in one section, which isn't
relaxed here, so each difference is known.
"""

import struct
from dataclasses import dataclass
from pathlib import Path

from bring_parts import Refused

# of a file's header where the table of sections lies, its entries' size and number; a section's header; a symbol; a relocation
TABLE, HEADER, SYMBOL, RELOCATION = struct.Struct("<32xI10xHH"), struct.Struct("<10I"), struct.Struct("<IIIBBH"), struct.Struct("<IIi")
# the field of a section's header with its alignment
ALIGN_AT = 32
RELOCATIONS, ALLOCATED, CODE = 4, 2, 4
NOTHING, LENGTH_TO, LENGTH_FROM = 0, 60, 61
WORD, MORE = 4, 0x80


@dataclass(frozen=True)
class Section:
    """A section, by its header, which stands at `place`."""
    place: int
    kind: int
    flags: int
    begin: int
    size: int
    link: int
    info: int
    align: int

    def is_narrow_data(self):
        return self.flags & (ALLOCATED | CODE) == ALLOCATED and self.align < WORD


def sections_in(content):
    """The sections of an object, by its bytes."""
    begin, size, number = TABLE.unpack_from(content)
    for place in range(begin, begin + size * number, size):
        _, kind, flags, _, at, length, link, info, align, _ = HEADER.unpack_from(content, place)
        yield Section(place, kind, flags, at, length, link, info, align)


def made_of(module, made):
    """An object as the linker takes it, written to the file that is made."""
    try:
        made.write_bytes(rewritten(bytearray(Path(module).read_bytes())))
    except (struct.error, LookupError, ValueError):
        raise Refused("its table of sections, or a relocation, leads out of the object: it is cut, or was changed") from None
    return made


def rewritten(content):
    """The bytes of an object with its data at words, and without relocations of lengths."""
    sections = [*sections_in(content)]
    for section in sections:
        if section.is_narrow_data():
            struct.pack_into("<I", content, section.place + ALIGN_AT, WORD)
        elif section.kind == RELOCATIONS:
            write_lengths(content, section, sections)
    return content


def write_lengths(content, relocations, sections):
    """Writes the lengths that these relocations leave open, and makes the relocations say nothing."""
    symbols, target, ends = sections[relocations.link], sections[relocations.info], {}
    for place in range(relocations.begin, relocations.begin + relocations.size, RELOCATION.size):
        at, info, addend = RELOCATION.unpack_from(content, place)
        kind, value = info & 0xff, SYMBOL.unpack_from(content, symbols.begin + (info >> 8) * SYMBOL.size)[1] + addend
        if kind == LENGTH_TO:
            ends[at] = value
        elif kind == LENGTH_FROM:
            put_length(content, target.begin + at, target.begin + target.size, ends[at] - value)
        else:
            continue
        RELOCATION.pack_into(content, place, at, NOTHING, 0)


def put_length(content, place, end, value):
    """Writes a number in place of the one that stands there, in groups of 7 bits, as many as that has."""
    while place < end:
        more = content[place] & MORE
        content[place] = value & 0x7f | more
        if not more:
            return
        place, value = place + 1, value >> 7
    raise ValueError("a number that doesn't end")
