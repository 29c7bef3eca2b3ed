"""Objects that are made before main begins: which they are, which of their members the code that makes them writes and which it leaves, and
whether only a destructor is the reason."""

import re

from bring_parts import dwarf, fields, listed, memory

import assembly

REMEDY = ("give each of its members a constant value, arrays too (`T slots[4]{}`), and the object the word `constinit`, by which the compiler "
          "says what isn't constant")
DESTROYED = ("has a destructor, and all else of it is constant: `[[clang::no_destroy]]` before the object leaves the destructor out by clang; "
             "gcc has no such word: do without the destructor")
# what is called to have a destructor run at the end
AT_EXIT = re.compile(r"(?:__cxa_|__aeabi_)?atexit")
# registers that a call keeps
SAVED = {f"x{number}" for number in (2, 8, 9, *range(18, 28))}
# that of the first argument, as of the object that a constructor makes
FIRST = "x10"
# how many objects and members are named
OBJECTS, NAMED = 3, 8


def said(section, image, before, after):
    """What is said of a section whose functions run before main or after it; `before` and `after` are the addresses of these."""
    making, ending = Walk(image), Walk(image)
    for address in before:
        making.function(address)
    for address in (*after, *making.destructors):
        ending.function(address)
    objects = memory.objects_of(image, fields.Parts(dwarf.of_image(image.path)))[0]
    if not making.written and (after or making.destructors):
        names = [f"`{each.name}`" for each in objects if written_in(each, ending)]
        return f"{section}: {names[0] if names else 'an object'} {DESTROYED}"
    made = [f"`{each.name}` is{members(each, making)}" for each in objects if written_in(each, making)]
    return f"{section}: an object is made before main begins{', as ' * bool(made)}{'; '.join(made[:OBJECTS])}{'; ..' * (len(made) > OBJECTS)}: {REMEDY}"


def written_in(placed, walk):
    """The bytes of an object that functions write, by their places in it."""
    return {at - placed.at for at in walk.written if placed.at <= at < placed.at + placed.size}


def members(placed, walk):
    """Which members of an object get their values then, and which get none; or nothing where a function is given the whole object."""
    written, places = written_in(placed, walk), {}
    if placed.at in walk.given:
        return ""
    for part in placed.parts:
        if step := re.match(r"\.(\w+)", part.name[len(placed.name):]):
            places.setdefault(step[1], set()).update(range(part.at, part.at + part.size))
    made, left = ([name for name, bytes_of in places.items() if bool(bytes_of & written) is wanted] for wanted in (True, False))
    if not made:
        return ""
    return f": its {first_of(made)} get{'s' * (len(made) == 1)} {'a value' if len(made) == 1 else 'values'} then" + f", and its {first_of(left)} none" * bool(left)


def first_of(names):
    """The names in a sentence; of many the first ones."""
    return f"{', '.join(names[:NAMED])}, .." if len(names) > NAMED else listed(names)


class Walk:
    """What functions write of an image's data, each instruction taken once, in order: the addresses that are known of stores, and those of data
    that calls are given."""

    def __init__(self, image):
        self.code = {each.at: each for each in image.code}
        self.relocations, self.limit = image.relocations, 4 * len(image.values)
        self.written, self.given, self.destructors, self.done = set(), set(), [], set()

    def function(self, address):
        """A function to its end."""
        registers = {}
        while address in self.code and address not in self.done:
            self.done.add(address)
            each = self.code[address]
            if each.name == "jal":
                self.call(each, registers)
                registers = {name: value for name, value in registers.items() if name in SAVED}
            elif each.name in assembly.STORES or each.name.startswith("amo"):
                self.store(each, registers)
            else:
                self.computed(each, registers)
            if each.is_end():
                return
            address = min((at for at in self.code if at > address), default=None)

    def call(self, each, registers):
        """A call, or a jump to what takes its place."""
        name = self.relocations.get(each.at, ("", 0, ""))[2]
        if AT_EXIT.fullmatch(name):
            self.destructors += [registers[FIRST]] if registers.get(FIRST) in self.code else []
            return
        if 4 <= registers.get(FIRST, 0) < self.limit:
            self.written.add(registers[FIRST])
            self.given.add(registers[FIRST])
        else:
            self.function(each.target())

    def store(self, each, registers):
        place = each.operands.split(",")[-1]
        offset, base = re.fullmatch(r"(-?[0-9]*)\((x[0-9]+)\)", place).groups()
        if base in registers and 4 <= registers[base] + int(offset or 0) < self.limit:
            self.written.add(registers[base] + int(offset or 0))

    @staticmethod
    def computed(each, registers):
        """A register's new value, if it is known."""
        target, *rest = each.operands.split(",")
        if each.name == "lui":
            registers[target] = int(rest[0], 0) << 12 & 0xFFFF_FFFF
        elif each.name in ("addi", "add") and rest[0] in registers and re.fullmatch(r"-?[0-9]+|x0", rest[1]):
            registers[target] = registers[rest[0]] + (0 if rest[1] == "x0" else int(rest[1]))
        elif each.name == "addi" and rest[0] == "x0":
            registers[target] = int(rest[1])
        else:
            registers.pop(target, None)
