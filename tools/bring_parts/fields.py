"""What a program calls the parts of each object, such as `q.tail` and `q.slot[1]`, by its debugging information."""

import re
from dataclasses import dataclass, replace
from itertools import islice

CLASSES = ("structure_type", "class_type", "union_type")
NUMBERED = re.compile(r"\.[0-9]+$")
# the data of a program are no larger, so no more parts are of use
MOST = 16 * 1024


@dataclass(frozen=True)
class Part:
    """A part of an object that has no parts: where it begins in the object, its bytes, its name, and whether it is volatile or atomic."""
    at: int
    size: int
    name: str
    is_volatile: bool = False


class Parts:
    """The parts of objects by an image's debugging information."""

    def __init__(self, information):
        self.information = information

    def of_variable(self, name, shown, begin, size):
        """The parts of the variable that the linker calls so which lie in these bytes of memory, by their places there, under
        the name that is shown. A compiler may have taken it apart, and then these bytes have some of its parts."""
        entry = self.information.variable(name, begin)
        kind = self.information.kind_of(entry) if entry else None
        is_volatile, pieces = (self.information.is_volatile(entry), self.information.pieces(entry)) if entry else (False, [])
        found = self.of_kind(kind, shown, is_volatile) if not entry or entry.name() else self.of_members(kind, is_volatile)
        # of a union without a name clang says a variable for each member, of one name for the linker
        found += [part for each in self.information.variables_at(begin) if each is not entry and self.information.is_called(each, name)
                  for part in self.of_kind(self.information.kind_of(each), each.name(), self.information.is_volatile(each))]
        if not pieces or len(pieces) == 1 and pieces[0][2] is None:
            return found if all(part.at + part.size <= size for part in found) else []
        return [replace(part, at=address + part.at - offset - begin)
                for part in found for offset, address, length in pieces
                if offset <= part.at < offset + (length or MOST) and begin <= address + part.at - offset < begin + size]

    def called(self, symbol, at):
        """What an author calls a variable, without what compilers put to it: a number after the name of a function's variable, and of one that was
        taken apart; by clang the function before it."""
        entry, name = self.information.variable(symbol.name, at), NUMBERED.sub("", symbol.plain)
        if entry is None:
            return symbol.plain
        return name.replace(".", "::") if entry.name() and name.endswith(f".{entry.name()}") else name

    def is_apart(self, name, at):
        """Whether the compiler took the variable apart."""
        entry = self.information.variable(name, at)
        return entry is not None and len(self.information.pieces(entry)) > 1

    def of_kind(self, kind, name, is_volatile=False):
        """The parts of an object of this type."""
        return self.some(part for part in self.parts(kind, 0, name, is_volatile) if part.size)

    def of_members(self, kind, is_volatile):
        """The parts of a variable without a name, which is a union: its members are called as variables are."""
        return [replace(part, name=part.name[1:]) for part in self.of_kind(kind, "", is_volatile)]

    def begins(self, kind, name):
        """Where in an object of this type the classes inside begin, by their names: before their first part, if a bit-field is before that."""
        found = {}
        for part in self.some(part for part in self.parts(kind, 0, name) if not part.size):
            # what has no name of its own, as a base, is called as the class that it is in, which comes first
            found.setdefault(part.name, part.at)
        return found

    @staticmethod
    def some(parts):
        """These parts, or the first of them."""
        try:
            return list(islice(parts, MOST))
        except RecursionError:
            return []

    def parts(self, kind, at, name, is_volatile=False):
        """The parts of an object of this type, at this place of a larger one, and before those of a class itself, without bytes."""
        if not self.size_of(kind):
            return  # or many objects without bytes would take long
        if kind.tag in CLASSES:
            yield Part(at, 0, name)
            is_volatile = is_volatile or kind.is_library and kind.name().lower().startswith("atomic")
            for member, is_named in self.members(kind):
                inner = member.name() if is_named else ""
                yield from self.parts(self.information.kind_of(member), at + member.number("data_member_location"),
                                      f"{name}.{inner}" if inner else name, is_volatile or self.information.is_volatile(member))
        elif kind.tag == "array_type":
            yield from self.elements(self.information.kind_of(kind), [self.length(each) for each in kind.inside], at, name,
                                     is_volatile or self.information.is_volatile(kind))
        else:
            yield Part(at, kind.number("byte_size", default=4), name, is_volatile)

    def whole(self, name, at):
        """The type of the variable that the linker calls so, if the compiler says one and didn't take it apart."""
        entry = self.information.variable(name, at)
        is_one = entry is not None and not any(length for *_, length in self.information.pieces(entry))
        return self.information.kind_of(entry) if is_one else None

    def is_plain(self, kind):
        """Whether the bytes of an object of this type that are in no part are padding: it has no bit-fields, and no variants as of an enum of Rust."""
        try:
            return self.is_made_of_parts(kind)
        except RecursionError:
            return False

    def is_made_of_parts(self, kind):
        if kind is None:
            return False
        if kind.tag == "array_type":
            return self.is_made_of_parts(self.information.kind_of(kind))
        inside = [each for each in kind.inside if each.tag in ("member", "inheritance", "variant_part")
                  and not {"external", "declaration"} & set(each.attributes)] if kind.tag in CLASSES else []
        return all(each.tag != "variant_part" and "bit_size" not in each.attributes and self.is_made_of_parts(self.information.kind_of(each))
                   for each in inside)

    def members(self, kind):
        """The members and bases of a class that have bytes of their own: each with whether it is called by its name. The only
        member of a library's class isn't: what is `q.tail` for its author is no `q.tail.v.value`."""
        found = [each for each in kind.inside if each.tag in ("member", "inheritance") and "bit_size" not in each.attributes
                 and not {"external", "declaration"} & set(each.attributes) and self.size_of(self.information.kind_of(each))]
        hides = len(found) == 1
        return [(each, each.tag == "member" and not (hides and (kind.is_library or each.name().startswith(("_M_", "__")))))
                for each in found]

    @staticmethod
    def length(subrange):
        return subrange.number("count") or subrange.number("upper_bound", default=-1) + 1

    def size_of(self, kind):
        """The bytes of an object of this type."""
        if kind is None:
            return 0
        if kind.tag != "array_type":
            return kind.number("byte_size", default=4)
        size = self.size_of(self.information.kind_of(kind))
        for each in kind.inside:
            size *= self.length(each)
        return size

    def elements(self, kind, lengths, at, name, is_volatile):
        """The parts of an array's elements, by its lengths from the outermost to the innermost."""
        if not lengths:
            yield from self.parts(kind, at, name, is_volatile)
            return
        step = self.size_of(kind)
        for length in lengths[1:]:
            step *= length
        for number in range(min(lengths[0], MOST)):
            yield from self.elements(kind, lengths[1:], at + number * step, f"{name}[{number}]", is_volatile)
