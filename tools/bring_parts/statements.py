"""Statements and init items as herd's texts have them, by those of ztso's profile. What would mean something else is
refused by name."""

import re

from bring_parts import Refused

import assembly

# the bytes of a type's object; a pointer has 8
TYPES = {"int": 4, "unsigned": 4, "int32_t": 4, "uint32_t": 4, "atomic_int": 4, "int64_t": 8, "uint64_t": 8, "long": 8,
         "intptr_t": 8, "uintptr_t": 8, "int8_t": 1, "uint8_t": 1, "char": 1, "int16_t": 2, "uint16_t": 2, "short": 2}
DOUBLES = {"ld": "lw", "sd": "sw"}
# instructions of 64-bit code whose low 32 bits are those of another instruction
SHORTER = {"addiw": "addi", "addw": "add", "subw": "sub", "sllw": "sll", "srlw": "srl", "sraw": "sra", "slliw": "slli",
           "srliw": "srli", "sraiw": "srai", "lwu": "lw", "negw": "neg"}
# pseudoinstructions, by what they stand for
LONGER = {"bgt": "blt {1},{0},{2}", "ble": "bge {1},{0},{2}", "bgtu": "bltu {1},{0},{2}", "bleu": "bgeu {1},{0},{2}",
          "bltz": "blt {0},x0,{1}", "bgez": "bge {0},x0,{1}", "bgtz": "blt x0,{0},{1}", "blez": "bge x0,{0},{1}",
          "sltz": "slt {0},{1},x0", "sgtz": "slt {0},x0,{1}", "sext.w": "addi {0},{1},0", "b": "jal x0,{0}", "pause": "fence w,0"}
REASONS = [(r"(lr|sc)\.[wd](\..*)?", "ztso has no LR and SC"),
           (r"l[bhwd]u?\.aq.*|s[bhwd]\.rl.*", "a load or store with an ordering, which is no instruction"),
           (r"csr.*|rd.*", "a control register"), (r"f[ls][wd]|f.*\.[sd]", "floating point"),
           (r"mul.*|div.*|rem.*", "the M extension"), (r"c\..*", "a compressed instruction"),
           (r"cbo.*|prefetch.*", "a cache operation"),
           (r"jr|call|tail|la|lla", "it needs addresses of code or of symbols"),
           (r"amo.*\.[bh](\..*)?|amocas.*", "ztso has the word AMOs of the A extension alone")]
ITEM = re.compile(r"(?:((?:\w+ )*\w+) ?(\**) ?(?<=[ *]))?(?:([0-9]+) ?: ?)?\[?([A-Za-z_]\w*)\]?(\[[0-9]*\])?"
                  r"(?: ?= ?(.*))?")
NUMBER = r"-?(?:0x[0-9a-fA-F]+|[0-9]+)"


class Objects:
    """What a text has said so far of the sizes of its objects and accesses: an object of 64 bits becomes a word, which
    is right only where nothing narrower reads or writes a part of it."""

    def __init__(self):
        self.double = self.narrow = self.inside = self.declared = None
        # the bytes of those that are declared with fewer than 4
        self.small = {}

    def judge(self):
        if self.double and self.narrow:
            raise Refused(f"accesses of 64 bits beside narrower ones: `{self.double}` and `{self.narrow}`")
        if self.inside and (self.declared or self.double):
            raise Refused(f"`{self.inside}`: a part of an object of 64 bits")


def item(text, objects):
    """An item of init that ztso refuses, by one that it takes, and what was changed."""
    text = " ".join(text.split())
    if "{" in text or len(text) > 200:
        raise Refused(f"init: `{text[:40]}`: an array, or no item")
    shape = ITEM.fullmatch(text)
    if not shape:
        raise Refused(f"init: `{text[:40]}` is no item")
    kind, star, hart, name, array, value = shape.groups()
    kind = kind.split()[-1] if kind else None
    if not kind and value is None:
        raise Refused(f"init: `{text}` gives no value")
    if array:
        raise Refused(f"init: `{text}`: an array")
    if kind and kind not in TYPES:
        raise Refused(f"init: the type `{kind}`")
    size = 8 if star else TYPES.get(kind, 4)
    if size == 8 and not star and hart is None:
        objects.declared = text
    if size < 4:
        objects.small[f"{hart}:{name}" if hart else name] = size
    note = "types by int, or left out" if kind != "int" or star or hart else None
    if value is not None and value.startswith("&"):
        note = "&x by x"
    value = (value or "0").lstrip("& ")
    if re.fullmatch(NUMBER, value):
        number = assembly.integer(value)
        if size >= 4 and not -1 << 31 <= number < 1 << 32:
            raise Refused(f"init: `{text}`: more than 32 bits")
        if size == 8 and number >> 31 == 1:
            raise Refused(f"init: `{text}`: 32 bits without a sign, which as a word would be negative")
        if size < 4 and not 0 <= number < 1 << 8 * size:
            raise Refused(f"init: `{text}`: as a word it isn't what `{kind}` holds")
    elif not re.fullmatch(r"[A-Za-z_]\w*", value):
        raise Refused(f"init: `{text}`: the value `{value}`")
    if hart is not None:
        return (f"{hart}:{name}={value}" if shape[6] else ""), note
    return f"int {name}={value}" if kind else f"{name}={value}", note


def cell(text, objects):
    """A cell of the table that ztso takes, and what was changed of it."""
    body, sign, comment = text.partition("#")
    front = re.match(r"[ \t]*(?:[A-Za-z_.][\w.]*:)?[ \t]*", body)[0]
    statement = body[len(front):].rstrip(assembly.BLANKS)
    if not statement:
        return text, None
    name, *operands = statement.split(maxsplit=1)
    parts = [each.strip() for each in "".join(operands).split(",")] if operands else []
    note_sizes(name, parts, statement, objects)
    try:
        assembly.statement(text)
        return text, None
    except assembly.Refused:
        made, note = other(name, parts, statement)
    try:
        assembly.statement(front + made)
    except assembly.Refused:
        reason = next((reason for form, reason in REASONS if re.fullmatch(form, name)), "no statement of ztso's")
        raise Refused(f"`{statement[:60]}`: {reason}") from None
    # the columns stay as they are where there is room, and a blank in any case
    blank = " " if body.endswith((" ", "\t")) else ""
    return front + made.ljust(len(body) - len(front) - len(blank)) + blank + sign + comment, note


def note_sizes(name, parts, statement, objects):
    """Notes how wide an access is."""
    if re.fullmatch(r"l[bhw]u?|s[bhw]|amo\w+\.w.*", name):
        objects.narrow = objects.narrow or statement
    elif re.fullmatch(r"ld|sd|amo\w+\.d.*", name):
        objects.double = objects.double or statement
    else:
        return
    offset = re.fullmatch(rf"({NUMBER})[ \t]*\(.*\)", parts[-1]) if parts else None
    if offset and not 0 <= assembly.integer(offset[1]) <= 3:
        objects.inside = objects.inside or statement


def other(name, parts, statement):
    """A statement that ztso refuses, by another, and what was changed."""
    if name == "fence.i":
        return "nop", "fence.i by nop: no code is written"
    if name in DOUBLES or re.fullmatch(r"amo\w+\.d(\..*)?", name):
        return f"{DOUBLES.get(name, name.replace('.d', '.w', 1))} {','.join(parts)}", "objects of 64 bits by words"
    if name in SHORTER:
        return f"{SHORTER[name]} {','.join(parts)}", "64-bit instructions by those with the same low 32 bits"
    if name in LONGER and len(parts) == len(set(re.findall(r"\{(.)\}", LONGER[name]))):
        return LONGER[name].format(*parts), "pseudoinstructions by what they stand for"
    return statement, None
