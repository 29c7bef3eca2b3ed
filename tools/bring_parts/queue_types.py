"""What the types of a source say of a queue: the bytes of its indices, slots and tags, and how many slots there are. What its description
leaves out is taken from them, and what contradicts them is refused. Lines of an answer that name bytes are followed by the names of these."""

import re
from dataclasses import dataclass
from os.path import commonprefix

from bring_parts import Refused
from bring_parts.fields import MOST

INDEX, TAG = (1, 2, 4), 4
ELEMENT = re.compile(r"\[([0-9]+)\](.*)")
# a name's steps from an object to a part, and how many names a line has
STEP, SHOWN = re.compile(r"\.?[^.\[]+|\[[0-9]+\]"), 12
RANGE = re.compile(r"([0-9]+)(?:-([0-9]+))?")
# lines of an answer that name bytes of records, or of memory
RECORDS = re.compile(r"queue ([0-9]+): bytes? (.*) of each record (?:are|is) (?:written|read) ")
FIELD = re.compile(r"queue ([0-9]+): the ([0-9]+) bytes from ([0-9]+) on of ")
UNSHOWN = re.compile(r"queue ([0-9]+): not shown that bytes? .* of each record (?:are|is) (written|read|read at most once, in order): byte ([0-9]+), hart ")
WRITES = re.compile(r"(?:hart [0-9]+: writes|the harts share) bytes? (.*) of ")


@dataclass(frozen=True)
class Array:
    """An array: its name, where it begins, how many elements it has, the bytes of one, and those of a number if it has only numbers."""
    name: str
    at: int
    count: int
    step: int
    number: int = None


@dataclass(frozen=True)
class Slots:
    """Where the slots of a queue begin, and the bytes of one."""
    slots: int
    width: int


class Types:
    """The types of a program's places, by its words of memory. Where the compiler says none, there are none."""

    def __init__(self, words):
        self.words, self.sizes, self.begins = words, words.sizes, words.starts

    def bytes_of(self, place):
        """The bytes of the number that is called so, or that alone begins there; or None."""
        name, at = self.words.shorter(place), self.words.address(place)
        found = {self.sizes[name]} if name in self.sizes else {size for part, size in self.sizes.items() if self.begins[part] == at}
        return found.pop() if len(found) == 1 else None

    def arrays_at(self, place):
        """The arrays that begin there, first the one that is called so, then the outer ones before their elements."""
        name, at = self.words.shorter(place), self.words.address(place)
        names = {part[:shape.start()] for part, begin in self.begins.items() if begin == at for shape in re.finditer(r"\[0\]", part)}
        found = [self.array(each) for each in sorted(names, key=lambda each: (each != name, len(each)))]
        return [each for each in found if each and each.at == at]

    def arrays_with(self, place):
        """The arrays of whose first elements a place is a part, or that begin there: the inner ones first."""
        name = self.words.shorter(place)
        outer = [self.array(name[:shape.start()]) for shape in reversed([*re.finditer(r"\[0\]", name)])]
        return [*filter(None, outer), *(each for each in self.arrays_at(place) if each not in outer)]

    def array(self, name):
        """The array of this name, or None where one element doesn't tell its size, or there are too many parts to know them all."""
        of_object = re.match(r"[^.\[]*", name)[0]
        if sum(part.startswith((f"{of_object}.", f"{of_object}[")) for part in self.sizes) >= MOST:
            return None
        found = [(ELEMENT.fullmatch(part[len(name):]), part) for part in self.sizes if part.startswith(f"{name}[")]
        begins = {}
        for shape, part in found:
            begins.setdefault(int(shape[1]), self.begins.get(f"{name}[{shape[1]}]", self.begins[part]))
        numbers = {self.sizes[part] for _, part in found} if all(re.fullmatch(r"(\[[0-9]+\])*", shape[2]) for shape, _ in found) else set()
        number = min(numbers, default=None)
        step = begins[1] - begins[0] if 1 in begins else number if len(found) == 1 else None
        return Array(name, begins[0], len(begins), step, number) if step else None

    def of_memory(self):
        """All parts of objects, and the stacks: of each its first byte, its end and its name."""
        stacks = sorted((begin, f"stack of hart {hart}") for hart, begin in self.words.stacks.items())
        ends = [*(begin for begin, _ in stacks[1:]), 4 * len(self.words.values)]
        return [*((self.begins[name], self.begins[name] + size, name) for name, size in self.sizes.items()),
                *((begin, end, name) for (begin, name), end in zip(stacks, ends))]

    def name_at(self, place, width):
        """What these bytes are called, if they are one part or lie in one; or None."""
        found = [(begin, name) for begin, end, name in self.of_memory() if begin <= place and place + width <= end]
        exact = [name for begin, name in found if begin == place and self.sizes.get(name) == width]
        begin, name = (place, exact[0]) if exact else found[0] if len(found) == 1 else (place, None)
        return name and name + f"+{place - begin}" * (place > begin)

    def is_volatile(self, name):
        """Whether what is called so, or what it is a part of, is declared volatile or atomic."""
        return name.partition("+")[0] in self.words.volatile

    def not_padding(self, queue):
        """The bytes of a record that aren't padding, or None where the types don't say which these are."""
        numbers = [array for array in self.arrays_at(str(queue.slots)) if array.number and queue.width % array.number == 0]
        if numbers:
            return set(range(queue.width))
        padding, name = self.padding(queue)
        return set(range(queue.width)) - padding if name else None

    def slots_of(self, queue):
        """The array that a queue's slots are, or None."""
        return next((array for array in self.arrays_at(str(queue.slots)) if array.step == queue.width), None)

    def of_record(self, queue):
        """The members of a record, if it is a struct."""
        array = self.slots_of(queue)
        first = f"{array.name}[0]" if array else None
        return [(self.begins[name] - array.at, self.begins[name] - array.at + size, name[len(first):].removeprefix("."))
                for name, size in self.sizes.items() if first and name.startswith((f"{first}.", f"{first}["))]

    def padding(self, queue):
        """The bytes of a record that are padding, as far as that is known, and the name of the slots."""
        array = self.slots_of(queue)
        if not array or re.match(r"[^.\[]*", array.name)[0] not in self.words.whole or array.number:
            return set(), None
        return set(range(queue.width)) - {at for begin, end, _ in self.of_record(queue) for at in range(begin, end)}, array.name


def named(ranges, parts):
    """What these bytes are called, by the parts that have them: `0-3 (time), 4 (kind)`. The elements of an array are one, and so is what shares bytes."""
    found = []
    for first, last in ranges:
        groups = {}
        for begin, end, name in sorted(parts):
            if begin <= last and first < end:
                groups.setdefault(name.partition("[")[0], []).append((max(begin, first), min(end, last + 1), name))
        for group in groups.values():
            begin, end = group[0][0], max(each[1] for each in group)
            name = "".join(commonprefix([STEP.findall(each[2]) for each in group]))
            if found and begin < found[-1][1]:
                found[-1] = (found[-1][0], max(found[-1][1], end), f"{found[-1][2]} or {name}")
            else:
                found.append((begin, end, name))
    return ", ".join(f"{ranged([(begin, end - 1)])} ({name})" for begin, end, name in found[:SHOWN]) + ", .." * (len(found) > SHOWN)


def ranged(ranges):
    """`0-3,6`."""
    return ",".join(str(first) if first == last else f"{first}-{last}" for first, last in ranges)


def ranges_of(places):
    """The ranges of these numbers."""
    begins = [at for at in sorted(places) if at - 1 not in places]
    return [(begin, next(at for at in range(begin, begin + len(places)) if at + 1 not in places)) for begin in begins]


def names_of(line, queues, types):
    """The line for the names of the bytes that a line of an answer names, if there are any, and for padding that isn't written, or read."""
    if shape := UNSHOWN.match(line):
        queue, byte = queues[int(shape[1])], int(shape[3])
        padding, slots = types.padding(queue)
        if byte in padding:
            option = shape[2] if shape[2] in ("written", "read") else "once"
            yield f"    byte {byte} is padding of {slots}: try --{option} {ranged(ranges_of(set(range(queue.width)) - padding))}"
            return
        found = named([(byte, byte)], types.of_record(queue))
    elif shape := RECORDS.match(line):
        found = named(ranges_in(shape[2]), types.of_record(queues[int(shape[1])]))
    elif shape := FIELD.match(line):
        found = named([(int(shape[3]), int(shape[3]) + int(shape[2]) - 1)], types.of_record(queues[int(shape[1])]))
    else:
        shape = WRITES.match(line)
        found = named(ranges_in(shape[1]), types.of_memory()) if shape else ""
    if found:
        yield f"    {found}"


def slots_in(described):
    """The slots of queues, by their descriptions as `completed` leaves them. What is malformed is left to tools/certify."""
    found = [dict(part.partition("=")[::2] for part in text.split(",")) for text in described]
    return [Slots(int(given["slots"]), int(given.get("width", "4"))) for given in found
            if given.get("slots", "").isdecimal() and given.get("width", "4").isdecimal()]


def bytes_by_types(queues, types):
    """The bytes of records that are to be written and read, as --written and --read take them: those that are padding of no queue, if the types
    say of all queues which these are; or None."""
    found = [types.not_padding(queue) for queue in queues]
    if not found or None in found:
        return None
    asked = {at for queue, used in zip(queues, found) for at in used if all(at in other or at >= each.width for each, other in zip(queues, found))}
    if not all(asked & used for used in found):
        return None
    return "all" if all(len(used) == queue.width for queue, used in zip(queues, found)) else ranged(ranges_of(asked))


def ranges_in(text):
    """The ranges of a line: of `0-3, 8 and 12`."""
    return [(int(first), int(last or first)) for first, last in RANGE.findall(text)]


def counted(number, of):
    """`1 byte`, `8 bytes`."""
    return f"{number} {of}" + "s" * (number != 1)


def without_blanks(text):
    """A description without the blanks around its commas."""
    return re.sub(r"\s*,\s*", ",", text.strip())


def completed(kind, text, types):
    """A description, of --queue or --tagged, with what the types say and it leaves out. What is malformed is left to tools/certify."""
    parts = [part.partition("=")[::2] for part in text.split(",")]
    given = dict(parts)
    if len(given) < len(parts) or not all(given.values()) or "slots" not in given:
        return text
    said = {name: int(given[name]) if given.get(name, "").isdigit() else None for name in ("size", "width", "bytes")}
    given |= of_slots(given, said, types)
    if kind == "--tagged":
        given |= of_elements(given, types)
        given |= of_tag(given, types)
    elif {"head", "tail"} <= given.keys():
        given |= of_indices(given, said["bytes"], types)
    return ",".join(map("=".join, given.items()))


def of_slots(given, said, types):
    """What the array of the slots says of size= and width=."""
    arrays = types.arrays_at(given["slots"])
    if not arrays:
        return {}
    array, total = arrays[0], max(each.count * each.step for each in arrays)
    width = said["width"] if "width" in given else array.step
    size = said["size"] if "size" in given else total // width if width else None
    if not width or not size:
        return {}
    of = f"{array.name} has {counted(array.count, 'element')} of {counted(array.step, 'byte')}"
    if width not in [each.step for each in arrays] and not (array.number and width % array.number == 0):
        raise Refused(f"{of}, and not of width={width}, which is in bytes: leave width out, or say width={array.step}")
    if size * width > total:
        keys = [name for name in ("size", "width") if name in given]
        raise Refused(f"{of}, too few for {counted(size, 'slot')} of {counted(width, 'byte')}: leave {' and '.join(keys)} out, or say "
                      f"size={array.count},width={array.step}")
    return {name: str(value) for name, value in (("size", size), ("width", width)) if name not in given}


def of_indices(given, said, types):
    """What the types of the indices say of bytes=."""
    found = {name: types.bytes_of(given[name]) for name in ("head", "tail")}
    for name, width in found.items():
        if width and width > max(INDEX) and said in INDEX:
            continue  # a part of it is the index, as where functions of a header store the lower word of a number of 8 bytes
        if width and width not in INDEX:
            raise Refused(f"{given[name]} has {counted(width, 'byte')}, and an index has 1, 2 or 4: the code is compiled for RV32, take uint32_t or size_t")
        if width and said and width != said:
            raise Refused(f"{given[name]} has {counted(width, 'byte')}, and not bytes={said}: leave bytes out, or say bytes={width}")
    known = {width for width in found.values() if width in INDEX}
    if len(known) > 1:
        raise Refused(f"{given['head']} has {counted(found['head'], 'byte')} and {given['tail']} {found['tail']}: both indices must have the same type")
    return {"bytes": str(width) for width in known if "bytes" not in given}


def of_elements(given, types):
    """What the array of a tag that is named beside slot 0 says of tags= and tag_stride=."""
    name = given.get("tag", "0").partition("+")[0]
    if name.isdigit() or "tags" in given or not name or not given.get("width", "").isdigit():
        return {}
    begin, at, width = types.words.address(given["slots"]), types.words.address(name), int(given["width"])
    if begin <= at < begin + width:
        return {}
    found = [array for array in types.arrays_with(name) if array.at <= at < array.at + array.step]
    array = next((each for each in found if str(each.count) == given.get("size")), next(iter(found), None))
    if not array or "tag_stride" in given:
        return {}
    if given.get("size", "").isdigit() and array.count < int(given["size"]):
        raise Refused(f"{array.name} has {counted(array.count, 'element')}, and each of {counted(int(given['size']), 'slot')} needs a tag")
    return {"tags": array.name, "tag_stride": str(array.step)}


def of_tag(given, types):
    """What the type of the tag says of its bytes."""
    name, plus, count = given.get("tag", "0").partition("+")
    width = types.bytes_of(str(types.words.address(given.get("tags", given["slots"])) + int(name)) if name.isdigit() else name)
    if not width or plus and not count.isdigit():
        return {}
    of = f"the tag {'at ' * name.isdigit()}{name} has {counted(width, 'byte')}"
    if width > TAG and not plus:
        raise Refused(f"{of}, and may have at most {TAG}: say which they are, as tag={name}+{TAG}")
    if width <= TAG and plus and int(count) != width:
        raise Refused(f"{of}, and not {count}: leave +{count} out, or say tag={name}+{width}")
    return {} if plus else {"tag": f"{name}+{width}"}
