"""A C file as its author wrote it: the test's name, the harts' functions, what `init` sets, and the condition. It is
herd's C format, or plain C with the condition in a comment."""

import re
from dataclasses import dataclass, field

from bring_parts import Refused, c_groups, conditions

# comments and strings; a comment that isn't closed goes on to the end
C_BLANK = r"/\*.*?(?:\*/|\Z)|//[^\n]*|\"(?:\\.|[^\"\\\n])*(?:\"|$)|'(?:\\.|[^'\\\n])*(?:'|$)"
C_BLANKS = re.compile(C_BLANK, re.DOTALL | re.MULTILINE)
# herd's comments too, which begin with a blank: `(*p)` is none
HERD_BLANKS = re.compile(rf"\(\*(?=\s).*?(?:\*\)|\Z)|{C_BLANK}", re.DOTALL | re.MULTILINE)
HEAD = re.compile(r"\s*C[ \t]+(\S[^\n]*)\n")
NOTE = re.compile(r"/\*.*?(?:\*/|\Z)|//[^\n]*(?:\n[ \t]*//[^\n]*)*", re.DOTALL)
FUNCTION = re.compile(r"[{}]|\bP([0-9]{1,3})\s*\(([^(){}]*(?:\([^(){}]*\)[^(){}]*)*)\)\s*(?=\{)")
ENDING = re.compile(r"[{}]|^[ \t]*(?:~[ \t]*)?(?:exists|forall|locations|filter)(?!\w)", re.MULTILINE)
ITEM = re.compile(r"(?:\w[\w ]*[ *])?(?:([0-9]{1,3}) ?: ?)?\[?\*?([A-Za-z_]\w*)\]?(?:\[([0-9]*)\])?(?: ?= ?(.*))?")
KERNEL = re.compile(r"\b(READ_ONCE|WRITE_ONCE|smp_\w+|xchg\w*)\b")


class NoCondition(Refused):
    """A source whose comments ask nothing."""


@dataclass
class Parameter:
    """A parameter's name and type, and how many objects it points to, or None where it is no pointer."""
    name: str
    kind: str
    count: int


@dataclass
class Function:
    """A hart's function: where it begins and ends in the code, and its body's text."""
    start: int
    end: int
    # whether a type stands before its name, and whether it returns a value
    typed: bool
    returns: bool
    parameters: list
    body: str


@dataclass
class Source:
    """A C file. The code has its lines numbered as in the file."""
    name: str
    file: str
    code: str
    # whether it is herd's format, in which words are shared that nothing declares
    is_litmus: bool
    ending: conditions.Ending
    header: str = None
    functions: list = field(default_factory=list)
    # the values of parameters by hart and name, and of shared words by their object's name
    settings: dict = field(default_factory=dict)
    words: dict = field(default_factory=dict)


def blanked(text, is_litmus):
    """The text with comments and strings as blanks, each line kept."""
    blanks = HERD_BLANKS if is_litmus else C_BLANKS
    return blanks.sub(lambda found: re.sub(r"[^\n]", " ", found[0]), text)


def read(text, file, preprocessed=lambda code: None):
    """The source of a file's text. `file` is its name; a test that has no other is named after it. `preprocessed` is the compiler's, for files that
    have a function in one half of an `#ifdef` or in both."""
    text = text.replace("\r\n", "\n")
    head = HEAD.match(blanked(text, True))
    source = of_litmus(text, head) if head else of_comments(text)
    source.name = plain_name(source.name or file.removesuffix(".c"))
    source.file = re.sub(r"[^\w.+-]", "_", file)
    include = f"#include \"{source.header}\"\n" if source.header else ""
    plain = blanked(source.code, source.is_litmus)
    source.functions = functions_of(c_groups.only_taken(source.code, plain, lambda code: preprocessed(include + code)))
    return source


def plain_name(name):
    """A test's name: it has no blank, and opens no comment."""
    return re.sub(r"\s+", "_", name.strip()).replace("(*", "(_")


def of_litmus(text, head):
    """herd's format: `{ init }`, functions, then locations, filter and the condition."""
    plain = blanked(text, True)
    begin = plain.find("{", head.end())
    close = closing(plain, begin) if begin >= 0 else None
    if close is None:
        raise Refused("there is no init part `{ .. }`")
    depth, rest = 0, None
    for found in ENDING.finditer(plain[close + 1:]):
        depth += {"{": 1, "}": -1}.get(found[0], 0)
        if depth == 0 and found[0] not in "{}":
            rest = close + 1 + found.start()
            break
    # (* .. *) is no comment of C
    code = HERD_BLANKS.sub(lambda found: re.sub(r"[^\n]", " ", found[0]) if found[0].startswith("(*") else found[0],
                           text[close + 1:rest])
    source = Source(head[1].split()[0], "", "\n" * plain.count("\n", 0, close + 1) + code, True,
                    conditions.ending(plain[rest:] if rest is not None else ""))
    source.header = "kernel.h" if KERNEL.search(code) else "herd.h"
    read_init(plain[begin + 1:close], source)
    return source


def closing(plain, begin):
    """Where the brace is closed that is open there, or None."""
    depth = 0
    for found in re.compile("[{}]").finditer(plain, begin):
        depth += 1 if found[0] == "{" else -1
        if not depth:
            return found.start()
    return None


def of_comments(text):
    """Plain C: a comment has the condition, and may have `test NAME` and `init ..`."""
    name, end, init = "", None, []
    for note in NOTE.finditer(text):
        body = re.sub(r"^[ \t]*//|/\*|\*/|^[ \t]*\*(?=[ \t])", " ", note[0], flags=re.MULTILINE)
        named = re.search(r"^[ \t]*test[ \t]+(\S+)[ \t]*$", body, re.MULTILINE)
        name = name or (named[1] if named else "")
        init += re.findall(r"^[ \t]*init[ \t]+([^\n]*)", body, re.MULTILINE)
        marks = list(conditions.KEYWORD.finditer(body))
        if end is None and any(mark[1] not in ("locations", "filter") for mark in marks):
            end = body[marks[0].start():]
    if end is None:
        raise NoCondition("no comment has a condition, such as `// exists (0:a0=0 /\\ 1:a0=0)`")
    source = Source(name, "", text, False, conditions.ending(end))
    read_init(";".join(init), source)
    return source


def read_init(text, source):
    """Reads items: `x=1`, `[x]=1`, `int x=1`, `p=&x`, `0:n=3`, `int a[2]={1,2}`."""
    for item in filter(None, (" ".join(each.split()) for each in text.split(";"))):
        shape = ITEM.fullmatch(item) if len(item) < 500 else None
        if not shape:
            raise Refused(f"init: `{item[:40]}` is no item")
        hart, name, _, value = shape.groups()
        values = [plain_value(each) for each in (value or "0").strip("{} ").split(",")]
        if hart is not None:
            source.settings[int(hart), name] = values[0]
        else:
            source.words[name] = values


def plain_value(text):
    """A value without a cast, an ampersand or a suffix."""
    value = re.sub(r"^\([\w *]*\)", "", text.strip()).lstrip("& ")
    value = re.sub(r"^(-?(?:0x[0-9a-fA-F]+|[0-9]+))[uUlL]*$", r"\1", value)
    if not re.fullmatch(r"-?(0x[0-9a-fA-F]{1,8}|[0-9]{1,10})|[A-Za-z_]\w*", value):
        raise Refused(f"init: `{text}` is no value of a word")
    return value


def functions_of(plain):
    """The harts' functions of a code without comments."""
    found, depth, open_at = {}, 0, None
    for shape in FUNCTION.finditer(plain):
        if shape[0] == "}":
            depth -= 1
            if depth == 0 and open_at in found:
                found[open_at].end = shape.start()
                found[open_at].body = plain[found[open_at].start:shape.start()]
            open_at = None if depth == 0 else open_at
        elif shape[0] == "{":
            depth += 1
        elif depth == 0:
            open_at = int(shape[1])
            if open_at in found:
                raise Refused(f"there are two functions P{open_at}")
            found[open_at] = function_at(plain, shape)
    if not found:
        raise Refused("there is no function P0(..) {..}: the harts' functions are P0, P1 and on")
    if sorted(found) != list(range(len(found))):
        names = ", ".join(f"P{hart}" for hart in sorted(found))
        raise Refused(f"the functions must be P0, P1 and on, none left out: there are {names}")
    for hart, function in found.items():
        if not function.body:
            raise Refused(f"P{hart}'s body isn't closed")
    return [found[hart] for hart in range(len(found))]


def function_at(plain, shape):
    """A function whose head was found."""
    begin = max(plain.rfind(";", 0, shape.start()), plain.rfind("}", 0, shape.start())) + 1
    before = re.sub(r"^[ \t]*#.*$", "", plain[begin:shape.start()], flags=re.MULTILINE).split()
    kind = [word for word in before if word not in ("static", "inline")]
    parameters = [parameter(each) for each in map(str.strip, shape[2].split(",")) if each not in ("", "void")]
    return Function(shape.start(), shape.end(), bool(kind), kind[-1:] not in ([], ["void"]), parameters, "")


def parameter(text):
    text = " ".join(text.split())
    array = re.fullmatch(r"(.*\W)(\w+) ?\[ ?(?:static )?([0-9]{0,4}) ?\]", text)
    if array:
        return Parameter(array[2], array[1] + "*", int(array[3] or 1))
    shape = re.fullmatch(r"(.*[\s*])(\w+)", text)
    if not shape or not re.match(r"[A-Za-z_]", shape[2]):
        raise Refused(f"the parameter `{text[:60]}` has no type and name")
    return Parameter(shape[2], shape[1], 1 if "*" in shape[1] else None)
