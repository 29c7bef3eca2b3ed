"""Case files: README.md has their form. What is written here is read as the same cases."""

import re
from dataclasses import dataclass, field
from pathlib import Path
from typing import Dict, List, Optional, Tuple

from . import escapes, parts

CASES = Path(__file__).resolve().parent.parent
ROOT = CASES.parent
SUFFIXES = (".cases", ".expected")
STREAMS = ("stdin", "stdout")
# how the text of standard input is given: at a pseudoterminal, or by a pipe
TYPED = ("at-a-terminal", "line-by-line", "text-by-text", "byte-by-byte", "in-two-pieces")
# what `wiped` is where nothing may be written to the terminal and wiped
NOTHING = (b"",)
NAME = re.compile(r"[^\s/]+")
TOOL = re.compile(rb"\./ztso|(?:tools|examples|scripts|tests)/[\w./-]+")
LIKE = re.compile(r"(\S+), with line ([1-9][0-9]*):(?: (.*))?")

Pieces = List[Tuple[int, bytes]]


class FormError(Exception):
    """A line of a case file that isn't of its form."""


@dataclass
class Stream:
    """Standard input, or what must come on standard output: a text, the bytes of a file of the
    repository or of a part of one (`FILE#PART`), or what the stream is instead of a pipe (a device, or closed)."""

    text: Pieces = field(default_factory=list)
    source: Optional[str] = None
    device: Optional[str] = None

    def content(self):
        return parts.content(self.source) if self.source else escapes.content(self.text)


@dataclass
class Case:
    """One run of the program, or of a tool."""

    name: str
    words: List[bytes]
    status: int = 0
    # the tool that runs in the program's place, by its path in the repository
    tool: Optional[str] = None
    # a line for the shell that runs the program as ./ztso, in place of words
    shell: Optional[str] = None
    comments: List[str] = field(default_factory=list)
    memory: Optional[int] = None
    each_allocation: Optional[str] = None
    typed: Optional[str] = None
    # where standard error is a pseudoterminal: texts that were written there and are wiped at the end, the last one last
    wiped: Optional[Tuple[bytes, ...]] = None
    copied: List[str] = field(default_factory=list)
    files: Dict[str, Pieces] = field(default_factory=dict)
    stdin: Stream = field(default_factory=Stream)
    stdout: Stream = field(default_factory=Stream)
    stderr: bytes = b""
    # the case above whose command line, status and file it has, and which line of the file is its own
    like: Optional[Tuple[str, int]] = None
    # where it stands: its file, its first line, and the line behind its last one
    path: Optional[Path] = None
    line: int = 0
    end: int = 0

    def folder_files(self):
        """The names and bytes of the files that lie where the program runs."""
        found = {Path(name).name: (ROOT / name).read_bytes() for name in self.copied}
        found.update((name, escapes.content(pieces)) for name, pieces in self.files.items())
        return found

    def answer(self):
        """The status, standard error and standard output that must come back."""
        return self.status, self.stderr, self.stdout.content()

    def needs_shell(self):
        """Whether a shell sets the case up: it limits memory, or closes a stream."""
        closed = "closed" in (self.stdin.device, self.stdout.device)
        return closed or self.memory is not None

    def is_plain(self):
        """Whether it has a command line, a status, one file and lines of standard error, and nothing else."""
        return len(self.files) == 1 and not self.shell and substance(self) == substance(
            Case(self.name, self.words, self.status, self.tool, files=self.files))

    def group(self):
        return "litmus" if self.path.suffix == ".expected" else self.path.stem

    def full_name(self):
        return f"{self.group()}/{self.name}"


def substance(case):
    """All of a case except its comments, its standard error and its place."""
    return (case.words, case.status, case.tool, case.memory, case.each_allocation, case.typed, case.wiped, case.copied,
            case.files, case.stdin, case.stdout, case.like)


def lines_in(pieces):
    """The lines of a text, each with its line end where it has one."""
    return re.findall(rb"[^\n]*\n|[^\n]+", escapes.content(pieces))


def files_below(folder):
    """The case files of a folder and those below it, by name."""
    return sorted(path for path in Path(folder).rglob("*") if path.suffix in SUFFIXES)


def all_files():
    return files_below(CASES) + files_below(ROOT / "litmus")


def read(path):
    """The cases of a file."""
    try:
        lines = Path(path).read_bytes().decode().split("\n")
    except UnicodeDecodeError as error:
        raise FormError(f"{path}: {error}") from error
    return Reader(Path(path), lines).cases()


class Reader:
    """The lines of a case file from its top to its end."""

    def __init__(self, path, lines):
        self.path, self.lines, self.at = path, lines, 0
        self.found = {}

    def refused(self, why):
        return FormError(f"{self.path}:{self.at}: {why}")

    def next_line(self):
        """The next line, or None at the end."""
        if self.at == len(self.lines):
            return None
        line = self.lines[self.at]
        self.at += 1
        if line.endswith(" ") or not (line.isprintable() or not line):
            raise self.refused("a blank at the line's end, or a character that one can't see")
        return line

    def cases(self):
        case = None
        while (line := self.next_line()) is not None:
            if line.startswith("== "):
                case = self.opened(line[3:])
            elif case and line and not line.startswith("#"):
                self.take(case, line)
            elif line.startswith("#"):
                if case:
                    case.comments.append(line[1:].strip())
            elif line:
                raise self.refused("no case begins above this line")
            if case and line:
                case.end = self.at
                while not self.lines[case.end - 1]:
                    case.end -= 1
        for case in self.found.values():
            self.at = case.line
            if case.words is None:
                raise self.refused(f"{case.name} has no line `$ ztso ..`")
            if case.each_allocation is not None and case.needs_shell():
                raise self.refused(f"{case.name} is run by a shell, whose allocations aren't to be refused")
            if case.typed and (case.stdin.device or case.stdout.device):
                raise self.refused(f"{case.name} has no text that is typed, or no pipe for the answers")
            if case.wiped is not None and (case.typed not in (None, "in-two-pieces") or case.needs_shell()):
                raise self.refused(f"{case.name} has another way of running than with standard error at a terminal")
        return list(self.found.values())

    def opened(self, name):
        if not NAME.fullmatch(name):
            raise self.refused("a case's name has no blank and no slash")
        if name in self.found:
            raise self.refused(f"a second case {name}")
        self.found[name] = Case(name, None, path=self.path, line=self.at)
        return self.found[name]

    def take(self, case, line):
        """Takes a line that isn't a case's first, and the text behind it where it opens one."""
        head, _, rest = line.partition(" ")
        if case.like and head != "!":
            raise self.refused("a case that is like another has lines of standard error alone")
        if head == "like":
            self.take_like(case, rest)
        elif head == "$":
            words = escapes.read_words(rest)
            is_tool = words and TOOL.fullmatch(words[0])
            if case.words is not None or not words or words[0] != b"ztso" and not is_tool:
                raise self.refused("not one command line `ztso ..` or `tools/NAME ..` of plain and quoted words")
            case.words, case.tool = words[1:], words[0].decode() if is_tool else None
        elif head == "!":
            case.stderr += escapes.read_line(rest)
        elif head == "status" and rest.isdigit():
            case.status = int(rest)
        elif head == "memory" and rest.isdigit():
            case.memory = int(rest)
        elif head == "each-allocation":
            case.each_allocation = rest
        elif head == "typed" and rest in TYPED:
            case.typed = rest
        elif head == "wiped" and rest:
            case.wiped = (case.wiped or ()) + (escapes.read_line(rest).removesuffix(b"\n"),)
        elif line in ("stderr at-a-terminal", "stderr never-wiped") and case.wiped is None:
            case.wiped = () if line.endswith("terminal") else NOTHING
        elif head == "copy" and rest:
            case.copied += rest.split(" ")
        elif head == "file" and rest.endswith(":"):
            self.take_file(case, rest[:-1])
        elif head.rstrip(":") in STREAMS:
            self.take_stream(case, head, rest)
        else:
            raise self.refused("no such line in a case")

    def take_like(self, case, rest):
        """Takes the line that makes a case of one above: the same, with another line in its file."""
        form = LIKE.fullmatch(rest)
        base = self.found.get(form[1]) if form else None
        if base is None or base is case or not base.is_plain() or substance(case) != substance(Case(case.name, None)):
            raise self.refused("a case is `like NAME, with line N: TEXT`, where NAME above has one file and no stream")
        (name, pieces), = base.files.items()
        lines, number = lines_in(pieces), int(form[2])
        if number > len(lines):
            raise self.refused(f"{base.name} has no line {number}")
        lines[number - 1] = escapes.read_line(form[3] or "")
        case.words, case.status, case.tool, case.like = base.words, base.status, base.tool, (base.name, number)
        case.files = {name: escapes.pieces_of(b"".join(lines))}

    def take_file(self, case, name):
        if name in case.files or "/" in name or not name:
            raise self.refused("a file's name comes once, and has no folder")
        case.files[name] = self.text()

    def take_stream(self, case, head, rest):
        stream = getattr(case, head.rstrip(":"))
        if stream != Stream():
            raise self.refused("the stream stands above already")
        way, _, name = rest.partition(" ")
        if head.endswith(":") and not rest:
            stream.text = self.text()
        elif way == "from" and name:
            stream.source = name
        elif way == "is" and name:
            stream.device = name
        else:
            raise self.refused("a stream is given by a text below it, by `from FILE` or by `is DEVICE`")

    def text(self):
        """The pieces of the next lines. Empty lines after them are none of theirs."""
        pieces, empty = [], 0
        while self.at < len(self.lines):
            line = self.lines[self.at]
            repeated = escapes.REPEATED.fullmatch(line)
            if not (repeated or line.startswith("  ") or not line):
                break
            self.next_line()
            if not line:
                empty += 1
                continue
            pieces += [(1, b"\n")] * empty
            empty = 0
            pieces.append((int(repeated[1]), escapes.read_line(repeated[2] or "")) if repeated
                          else (1, escapes.read_line(line[2:])))
        return escapes.joined(pieces)


def block(case):
    """The lines of a case file for a case."""
    yield f"== {case.name}"
    yield from (f"# {comment}".rstrip() for comment in case.comments)
    yield from like_line(case) if case.like else given(case)
    if case.stderr:
        *lines, last = case.stderr.split(b"\n")
        shown = [escapes.shown(line) for line in lines] + ([escapes.shown(last) + "\\"] if last else [])
        yield from (f"! {line}".rstrip(" ") for line in shown)


def like_line(case):
    """The line of a case that is like another."""
    name, number = case.like
    (_, pieces), = case.files.items()
    line = lines_in(pieces)[number - 1]
    text = escapes.shown(line[:-1]) if line.endswith(b"\n") else escapes.shown(line) + "\\"
    yield f"like {name}, with line {number}: {text}".rstrip(" ")


def given(case):
    """The lines of a case between its comments and its standard error."""
    yield " ".join([f"$ {case.tool or 'ztso'}", *map(escapes.quoted, case.words)])
    if case.status:
        yield f"status {case.status}"
    if case.memory is not None:
        yield f"memory {case.memory}"
    if case.each_allocation is not None:
        yield f"each-allocation {case.each_allocation}".rstrip()
    if case.typed:
        yield f"typed {case.typed}"
    if case.wiped in ((), NOTHING):
        yield "stderr never-wiped" if case.wiped else "stderr at-a-terminal"
    else:
        yield from (f"wiped {escapes.shown(wiped)}" for wiped in case.wiped or ())
    if case.copied:
        yield " ".join(["copy", *case.copied])
    for name, pieces in case.files.items():
        yield f"file {name}:"
        yield from escapes.lines_of(pieces)
    for name in STREAMS:
        stream = getattr(case, name)
        if stream.device or stream.source:
            yield f"{name} is {stream.device}" if stream.device else f"{name} from {stream.source}"
        elif stream.text:
            yield f"{name}:"
            yield from escapes.lines_of(stream.text)


def written(cases, head=()):
    """A case file's text: comment lines, and then its cases."""
    blocks = [[f"# {line}".rstrip() for line in head]] if head else []
    blocks += [list(block(case)) for case in cases]
    return "\n\n".join("\n".join(lines) for lines in blocks) + "\n"


def write(path, cases, head=()):
    Path(path).write_bytes(written(cases, head).encode())


def head_of(path):
    """The comment lines above a file's first case."""
    found = []
    for line in Path(path).read_bytes().decode().split("\n"):
        if not line.startswith("#"):
            break
        found.append(line[1:].strip())
    return found


def replace(path, case):
    """Writes a case in the place of the one of its name, or behind all, and leaves the others."""
    lines = Path(path).read_bytes().decode().rstrip("\n").split("\n")
    old = next((old for old in read(path) if old.name == case.name), None)
    new = list(block(case))
    lines = lines[:old.line - 1] + new + lines[old.end:] if old else lines + ["", *new]
    Path(path).write_bytes(("\n".join(lines) + "\n").encode())
