"""The words of memory of a litmus text: what each is called, by the objects and their parts that begin there, and what it
opens as."""

import re
from collections import Counter
from dataclasses import dataclass, field

from bring_parts import Refused, nearest

# the names that ztso has for words, and the words that the machine has
LOCATIONS, WORDS = 1024, 4096
WIDTH = 112
# how many names a refusal has
SHOWN = 12
NUMBER = re.compile(r"[0-9]+|0[xX][0-9a-fA-F]+")


def number(text):
    """The number of an address."""
    return int(text, 16 if text[:2] in ("0x", "0X") else 10)


@dataclass(frozen=True)
class Placed:
    """An object of the data, or a piece of one: its address, its bytes, its name, and its parts by their places in it; where in it those begin that
    have parts, and whether what is in no part is padding."""
    at: int
    size: int
    name: str
    parts: list = field(default_factory=list)
    begins: dict = field(default_factory=dict)
    is_whole: bool = False


class Memory:
    """The names and opening values of memory's words. Word 0 has a name of its own, since its address is that of a
    null pointer. `longer` has for an object its author's longer name of it, and `is_described` says whether there is debugging information of any."""

    def __init__(self, values, objects, longer=(), is_described=True):
        self.values, self.names, self.is_described = values, [None] * min(len(values), LOCATIONS), is_described
        fulls = dict(longer)
        written = Counter(map(as_written, fulls.values()))
        self.longer = {each: name for name, full in fulls.items() for each in (full, as_written(full))
                       if each != name and (each == full or written[each] == 1)}
        # the word of an object's name, and of its further words; that of a part by its name; and the names of what has
        # fewer than 4 bytes
        self.places, self.parts, self.small = {}, {}, {each.name for each in objects if each.size < 4}
        # where objects and parts of them begin, and how many bytes each part has, by their names
        self.begins = {part.name: each.at + part.at for each in objects for part in each.parts} | {each.name: each.at for each in objects}
        self.sizes = {part.name: part.size for each in objects for part in each.parts}
        self.volatile = {part.name for each in objects for part in each.parts if part.is_volatile}
        # all of these, and where objects inside begin that have parts
        self.starts = {name: each.at + at for each in objects for name, at in each.begins.items()} | self.begins
        # the objects of which all that is in no part is padding, the first byte of each hart's stack, and of inputs their bytes
        self.whole, self.stacks, self.inputs = {each.name for each in objects if each.is_whole}, {}, []
        called = self.called_by_parts(objects)
        words = [(each.at // 4 + at, each.name, at) for each in objects for at in range((each.size + 3) // 4 or 1)]
        for place, name, at in sorted(words, key=lambda word: word[2]):
            self.places.setdefault((name, at), place)
            if place < len(self.names) and self.names[place] is None:
                self.names[place] = self.fresh(called.get(place) or re.sub(r"\W", "_", name) + (f"_{at}" if at else ""))
        for place, name in enumerate(self.names):
            self.names[place] = name or self.fresh(f"word{4 * place}" if place else "null")

    def called_by_parts(self, objects):
        """A name for each word by the first part of an object that begins there: `q_tail` for `q.tail`, and `q_slot` for
        `q.slot[0]`. Notes the parts that have a word for themselves."""
        called = {}
        for each in objects:
            # members of a union that lie in the same bytes are in nobody's way
            alone = Counter(at // 4 for at, _ in {(part.at, part.size) for part in each.parts})
            for part in each.parts:
                place, offset = divmod(each.at + part.at, 4)
                if offset:
                    continue
                called.setdefault(place, word_name(part.name))
                if part.size == 4 or alone[part.at // 4] == 1:
                    self.parts.setdefault(part.name, place)
                    self.small |= {part.name} if part.size < 4 else set()
        return called

    def fresh(self, name):
        """A name that no word has yet."""
        while name in self.names or name == "not":
            name += "_"
        return name

    def shorter(self, text):
        """A place by the object's name in the text, where it is said by its author's longer one."""
        for full, name in sorted(self.longer.items(), key=lambda each: -len(each[0])):
            if text == full or text.startswith((f"{full}.", f"{full}[")):
                return name + text[len(full):]
        return text

    def named(self, text, what):
        """The name of a word that a program calls `x`, `a[2]` or `q.tail`."""
        text = self.shorter(text)
        shape = re.fullmatch(r"(.+?)(?:\[([0-9]+)\])?", text)
        place = self.parts.get(text, self.places.get((shape[1], int(shape[2] or 0))) if shape else None)
        if place is None and text not in self.names:
            if text in self.sizes:
                raise Refused(f"{what} {text}, which has no word for itself: let a hart return it, and ask for that")
            raise Refused(f"{what} {text}, which is no shared word: {self.there(text)}{self.undescribed(text)}")
        if place is not None and place >= len(self.names):
            raise Refused(f"{what} {text}, which lies past the {LOCATIONS} words that ztso names: let a hart return it, or make other data smaller")
        return text if place is None else self.names[place]

    def there(self, text):
        """What is said of the names that there are, of an array's elements of the first one; if not all are named, the nearest ones first."""
        known = [name for name in self.begins if not re.search(r"\[[1-9]", name)
                 and not any(other.startswith((f"{name}.", f"{name}[")) for other in self.begins)]
        near = nearest(text, known) if len(known) > SHOWN else []
        known = [*near, *(name for name in known if name not in near)]
        return f"there are {', '.join(known[:SHOWN])}" + ", .." * (len(known) > SHOWN) if known else "there are none"

    def undescribed(self, text, by_bytes=False):
        """What helps if the text may be a part of an object of which there is no debugging information."""
        name = re.split(r"[.\[+]", text)[0]
        if self.is_described or name == text or name not in self.begins:
            return ""
        return "; compile with -g" + f", or say {name}+BYTES" * by_bytes

    def address(self, text):
        """Where an object begins or a part of one, as its author calls it; or what has this name in the text, and `name+4` bytes on."""
        whole, text = text, self.shorter(text)
        name, _, bytes_on = text.partition("+")
        begins = self.starts.get(name, next((at for part, at in self.starts.items() if part.startswith((f"{name}.", f"{name}["))), None))
        if begins is None and name in self.names:
            begins = 4 * self.names.index(name)
        if begins is None and NUMBER.fullmatch(name):
            begins = number(name)
        if begins is None or bytes_on and not bytes_on.isdigit():
            raise Refused(f"{whole} is no place of the program: {self.there(name)}{self.undescribed(text, True)}")
        return begins + int(bytes_on or 0)

    def value(self, text, what):
        """A number, or the name of a word, or the address of one that has none."""
        place = self.places.get((self.shorter(text), 0), 0)
        if place >= len(self.names):
            return str(4 * place)
        return self.named(text, what) if re.match(r"[A-Za-z_]", text) else text

    def is_small(self, text):
        """Whether what is called so has fewer than 32 bits."""
        return self.shorter(text) in self.small

    def open(self, settings):
        for name, values in settings.items():
            for at, value in enumerate(values):
                if (self.shorter(name), at) in self.places:
                    self.values[self.places[self.shorter(name), at]] = self.value(value, f"init sets {name} to")

    def push_stack(self, hart, size):
        """Room for a hart's stack; returns its upper end."""
        self.stacks[hart] = 4 * len(self.values)
        for at in range(size // 4):
            if len(self.values) < LOCATIONS:
                self.names.append(self.fresh(f"stack{hart}_{at}"))
            self.values.append(0)
        return 4 * len(self.values)

    def check_size(self, room=4 * WORDS):
        """Refuses more words than fit into `room` bytes, and one past those that have names that doesn't open as 0."""
        if 4 * len(self.values) > room:
            raise Refused(f"{len(self.values)} words of data and stacks: the machine has {room // 4}" + " beside what --input names" * (room < 4 * WORDS))
        if wrong := next((at for at in range(LOCATIONS, len(self.values)) if self.values[at]), None):
            raise Refused(f"the word at {4 * wrong} opens as {self.values[wrong]}, and ztso names {LOCATIONS} words: what lies past them opens as 0")

    def items(self):
        """The items of init, some of them on each line."""
        lines = [""]
        for name, value in zip(self.names, self.values):
            item = f"int {name}={value};" if value else f"int {name};"
            if lines[-1] and len(lines[-1]) + len(item) >= WIDTH:
                lines.append("")
            lines[-1] += f" {item}" if lines[-1] else item
        return lines


def word_name(part):
    """What the word of a part is called: `q_tail` for `q.tail_`."""
    return re.sub(r"\W+", "_", re.sub(r"(?<!\])\[0\]$", "", part)).strip("_")


def as_written(plain):
    """A name as its author would write it: `app::x` of `app::(anonymous namespace)::x`, `f::count` of `f(int)::count`."""
    return re.sub(r"\(anonymous namespace\)::|\([^()]*\)(?=::)", "", plain)


def short(plain):
    """The last part of a name that a language has made: `q` of `app::q`, `slots` of `app::Pool<int, 4>::slots`."""
    while (shorter := re.sub(r"<[^<>]*>|\([^()]*\)|\[abi:\w+\]", "", plain)) != plain:
        plain = shorter
    return plain.strip().split("::")[-1].split(" ")[-1] or plain


def objects_of(image, parts):
    """The objects of an image's data, and their authors' names by those that they have in the text: the last part, or all
    of it where two have the same. The parts of one that a compiler took apart have its name."""
    data = [(at, size, symbol, parts.called(symbol, at)) for at, size, symbol in image.data()]
    whole = Counter(name for at, _, symbol, name in data if not parts.is_apart(symbol.name, at))
    found = [(at, size, symbol, name if parts.is_apart(symbol.name, at) or whole[name] == 1 else symbol.plain) for at, size, symbol, name in data]
    plains = {plain for _, _, _, plain in found}
    count = Counter(map(short, plains))
    names = {plain: short(plain) if count[short(plain)] == 1 else plain for plain in plains}
    placed, pieces = [], Counter()
    for at, size, symbol, plain in found:
        name, number = names[plain], pieces[plain]
        pieces[plain] += 1
        kind = parts.whole(symbol.name, at)
        placed.append(Placed(at, size, f"{name}_{number}" if number else name,
                             parts.of_variable(symbol.name, name, at, size), parts.begins(kind, name), parts.is_plain(kind)))
    return placed, {name: plain for plain, name in names.items()}
