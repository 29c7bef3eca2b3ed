"""The debugging information of an image, as objdump prints it: its entries, types, variables and functions. Where a compiler
writes none, there is none."""

import re
from dataclasses import dataclass, field

from bring_parts.objects import SUFFIX, tool

UNIT = re.compile(r" +Compilation Unit @ offset (?:0x)?([0-9a-f]+):")
ENTRY = re.compile(r" <([0-9a-f]+)><([0-9a-f]+)>: Abbrev Number: [0-9]+ \(DW_TAG_(\w+)\)")
ATTRIBUTE = re.compile(r" {4}<[0-9a-f]+> +DW_AT_(\w+) *: *(?:\([^()]*(?:\([^()]*\)[^()]*)*\): )?(.*\S)")
REFERENCE = re.compile(r"<(?:alt )?0x([0-9a-f]+)")
ADDRESSES, ADDRESS = re.compile(r" +For compilation unit at offset (?:0x)?([0-9a-f]+):"), re.compile(r"\t([0-9]+):\t([0-9a-f]+)")
# types that have the parts of the one that they name
SAME = ("typedef", "const_type", "volatile_type", "atomic_type", "restrict_type")
VOLATILE = {"volatile_type", "atomic_type"}
POINTERS = ("pointer_type", "reference_type", "rvalue_reference_type")
# the namespaces of the languages' libraries
LIBRARIES = ("std", "core", "alloc")


@dataclass
class Entry:
    """An entry of the debugging information, with those inside."""
    tag: str
    # the unit that it is in, and whether it is of a library
    unit: str = ""
    is_library: bool = False
    attributes: dict = field(default_factory=dict)
    inside: list = field(default_factory=list)

    def text(self, name):
        """An attribute that is a text, without what objdump says of where it stands."""
        return re.sub(r"^\((?:alt )?[^()]*\): ", "", self.attributes.get(name, ""))

    def name(self):
        return self.text("name")

    def number(self, *names, default=0):
        """An attribute that is a number, by the first of these names that it has."""
        found = next((self.attributes[name] for name in names if name in self.attributes), None)
        shape = re.match(r"0x[0-9a-f]+|[0-9]+", found or "")
        return int(shape[0], 0) if shape else default

    def has_code(self):
        return "low_pc" in self.attributes or "ranges" in self.attributes


class Information:
    """The entries of an image by their places. `addresses` has those that a location names by a number, for each unit."""

    def __init__(self, listing, addresses=""):
        self.entries, self.variables, self.functions, self.units = {}, [], [], []
        self.addresses, self.placed = addresses_in(addresses), None
        above, entry, unit = [], None, ""
        for line in listing.splitlines():
            if head := ENTRY.match(line):
                entry = self.entries[head[2]] = Entry(head[3], unit)
                del above[int(head[1], 16):]
                if above:
                    above[-1].inside.append(entry)
                    entry.is_library = above[-1].is_library or above[-1].tag == "namespace" and above[-1].name() in LIBRARIES
                above.append(entry)
                self.note(entry)
            elif entry and (shape := ATTRIBUTE.match(line)):
                entry.attributes[shape[1]] = shape[2]
            elif begin := UNIT.match(line):
                unit = begin[1]

    def note(self, entry):
        of_tag = {"variable": self.variables, "subprogram": self.functions, "compile_unit": self.units}
        of_tag.get(entry.tag, []).append(entry)

    def kind_of(self, entry):
        """The entry of an entry's type, without names and qualifiers, or None."""
        return self.types_of(entry)[-1]

    def is_volatile(self, entry):
        """Whether an entry's type is volatile or atomic."""
        return any(each and each.tag in VOLATILE for each in self.types_of(entry))

    def types_of(self, entry):
        """The entries of an entry's names and qualifiers, and the one that these are of, or None."""
        found = []
        while len(found) < 64:
            shape = REFERENCE.match(entry.attributes.get("type", ""))
            entry = self.entries.get(shape[1]) if shape else None
            found.append(entry)
            if entry is None or entry.tag not in SAME:
                return found
        return [None]

    def origin(self, entry):
        """The entry that says the rest of an entry, or itself."""
        shape = REFERENCE.match(entry.attributes.get("specification", entry.attributes.get("abstract_origin", "")))
        return self.entries.get(shape[1], entry) if shape else entry

    def variable(self, name, at=None):
        """The entry that says what the variable is that the linker calls so, or None. Of several the one at this address; where the linker's name isn't
        said, as gcc says none of what only its file sees, the one that is there."""
        called, there = [self.origin(each) for each in self.variables if self.is_called(each, name)], self.variables_at(at)
        # the linker's name has the author's in it
        there = [each for each in there if each.name() in name]
        return next((each for each in called if any(each is other for other in there)), next(iter(called + there), None))

    def variables_at(self, at):
        """The entries of the variables that lie whole at an address: more than one where a union without a name has its members for variables."""
        if self.placed is None:
            self.placed = {}
            for each in self.variables:
                pieces = self.pieces_in(each) if "location" in each.attributes else []
                if len(pieces) == 1 and pieces[0][2] is None:
                    self.placed.setdefault(pieces[0][1], []).append(self.origin(each))
        return self.placed.get(at, [])

    def is_called(self, entry, name):
        """Whether the linker calls a variable so, or a part of it."""
        return bool({name, SUFFIX.sub("", name)} & self.names(entry))

    def names(self, entry):
        """What the linker may call a variable or function."""
        return {each.text("linkage_name") or each.name() for each in (entry, self.origin(entry))}

    def function(self, name):
        """The entry of the function that the linker calls so, or None. Of one that has another's code there is none with an
        address."""
        found = [each for each in self.functions if name in self.names(each) | {each.name()}]
        return max(found, key=lambda each: (each.has_code(), "declaration" not in each.attributes), default=None)

    def parameters(self, function):
        """The names and types of a function's parameters."""
        origins = [self.origin(each) for each in function.inside if each.tag == "formal_parameter"]
        return [(each.name(), self.kind_of(each)) for each in origins]

    def returned(self, function):
        """The type of what a function returns, or None."""
        return self.kind_of(function) or self.kind_of(self.origin(function))

    def pieces(self, entry):
        """Where a variable lies: for each of its pieces the place in it, the address, and the bytes, or None where there is one
        piece, which is all of it."""
        placed = next((each for each in self.variables if "location" in each.attributes and self.origin(each) is entry), None)
        return self.pieces_in(placed) if placed else []

    def pieces_in(self, placed):
        """The same by the entry that has the location."""
        found, offset, address = [], 0, None
        shape = re.search(r"\((DW_OP_.*)\)", placed.attributes["location"])
        for step in shape[1].split("; ") if shape else []:
            name, *operands = re.split(r"[: <>]+", step.strip())
            if name == "DW_OP_addr":
                address = int(operands[0], 16)
            elif name == "DW_OP_addrx":
                address = self.addresses.get((placed.unit, int(operands[0], 0)))
            elif name == "DW_OP_plus_uconst" and address is not None:
                address += int(operands[0], 0)
            elif name == "DW_OP_piece":
                found += [(offset, address, int(operands[0], 0))] if address is not None else []
                offset, address = offset + int(operands[0], 0), None
            else:
                return []
        return found + [(offset, address, None)] * (address is not None)


def addresses_in(listing):
    """The addresses by a unit's place and their number in it."""
    found, unit = {}, ""
    for line in listing.splitlines():
        if head := ADDRESSES.match(line):
            unit = head[1]
        elif row := ADDRESS.match(line):
            found[unit, int(row[1])] = int(row[2], 16)
    return found


def of_image(image):
    """The debugging information of an image."""
    return Information(tool("objdump", "--dwarf=info", image), tool("objdump", "--dwarf=addr", image))


def producers_of(module):
    """The compilers that a module names, each once, without the flags that gcc tells of itself."""
    listing = tool("objdump", "--dwarf=info", "--dwarf-depth=1", module)
    found = [each.text("producer") for each in Information(listing).units]
    return list(dict.fromkeys(each.partition(" -fpreprocessed")[0] for each in found if each))
