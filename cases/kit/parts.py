"""Parts of the repository's files, named `FILE#PART`: a listing of docs/channels.md or docs/functions.md, a program of
an assembly file, a table of words in a source, or one that a mutant makes of it."""

import re
import sys
from pathlib import Path

ROOT = Path(__file__).resolve().parent.parent.parent
sys.path.append(str(ROOT / "tools/reference"))

from ring_kinds import RINGS  # noqa: E402
from sections import sections  # noqa: E402

CRATE = {name: ring.crate for name, ring in RINGS.items()}
ROLES = ("sender", "receiver")
# the program that a ring shares with another one, by that one's name
SHARED = {(name, "receiver"): f"{ring.receiver}_receiver" for name, ring in RINGS.items() if ring.receiver != name}
# the queue's functions, each with its table, which stands in one of FUNCTION_WORDS
FUNCTIONS = {"lamport_try_send": "TRY_SEND", "lamport_try_receive": "TRY_RECEIVE", "cached_try_send": "CACHED_SEND",
             "fastforward_try_send": "FASTFORWARD_SEND", "fastforward_try_receive": "FASTFORWARD_RECEIVE"}
FUNCTION_WORDS = [ROOT / "crates/spsc_queue/src" / name for name in ("lib.rt", "cached.rt", "fastforward.rt")]
# the words that all receivers share
RECEIVER = ROOT / "crates/poll_close/src/listing.rt"


class NoSuchPart(Exception):
    """A file hasn't the part that was asked for."""


def named(kind, role):
    """The name of a ring's program."""
    return SHARED.get((kind, role), f"{kind}_{role}")


def programs():
    """The kind and the role of each program, of those that rings share once."""
    return [(kind, role) for kind in CRATE for role in ROLES if (kind, role) not in SHARED]


def listed(page, heading):
    """The listings below a heading: the lines of each and their remarks, by their offsets."""
    section = page.split(f"{heading}\n")[1].split("\n## ")[0]
    return [{line[:2]: remarked(line[2:]) for line in block.split("```")[0].splitlines()} for block in section.split("```asm\n")[1:]]


def remarked(line):
    """A line of a listing, with one blank between its words, and the remark beside it."""
    line, _, remark = line.partition("#")
    return " ".join(line.split()), remark.strip()


def heading(kind):
    return f"## {RINGS[kind].heading}"


def listing(page, kind, role):
    """A program's listing. A receiver's lines are Lamport's, except where the ring has lines of its own."""
    sender, *own = listed(page, heading(kind))
    return sender if role == "sender" else listed(page, heading("lamport"))[1] | (own[0] if own else {})


def function(page, name):
    """The listing of one of the queue's functions: its lines and their remarks."""
    block = page.split(f"### {name}\n")[1].split("```asm\n")[1].split("```")[0]
    return [remarked(line) for line in block.splitlines()]


def program(assembly, name):
    """The lines of a global symbol's program up to its size, without directives, and with local labels
    `.Lname_label` as `label`."""
    body = assembly.split(f"\n{name}:\n")[1].split(f"    .size {name},")[0]
    return body.replace(f".L{name}_", "").splitlines()


def table(source, name):
    """The words of a constant table. A receiver's may be those that all receivers share round the ring's own."""
    value = re.search(rf"^const {name}: \[u32; \d+\] = ((?:receiver!)?\[.*?\]);", source, re.DOTALL | re.MULTILINE)[1]
    words = re.findall("0x[0-9A-F]{8}", value)
    if value.startswith("receiver!"):
        body = RECEIVER.read_text().split("=> {")[1]
        places = iter(words)
        words = [next(places) if word[0] == "$" else word for word in re.findall(r"0x[0-9A-F]{8}|\$\w+", body)]
    return [int(word, 16) for word in words]


def crate_of(kind):
    """The folder of a ring's crate."""
    return ROOT / "crates" / CRATE[kind]


def source_of(kind):
    """The file with a ring's tables."""
    return crate_of(kind) / "src/lib.rt"


def mutants(crate):
    """The mutants of a ring's crate that edit its tables, each as pairs of what stands there and what comes in its place."""
    found = {}
    for mutant, edits in sections((crate / "mutants.edits").read_text()):
        parts = (part.partition("\n") for part in re.split("^file: ", edits, flags=re.MULTILINE)[1:])
        changes = "".join(text for name, _, text in parts if name == "src/lib.rt")
        if pairs := re.findall("^old: (.*)\nnew: (.*)$", changes, re.MULTILINE):
            found[mutant] = pairs
    return found


def edited(crate, name):
    """A ring's source, which is its crate's file src/lib.rt, after the edits of a mutant."""
    known, source = mutants(crate), (crate / "src/lib.rt").read_text()
    if name not in known:
        raise NoSuchPart(f"no mutant {name} edits the ring's tables, but {', '.join(known)}")
    for old, new in known[name]:
        source = source.replace(old, new)
    return source


def content(name):
    """The bytes of a file of the repository, or of the part that `FILE#PART` names."""
    path, _, part = name.partition("#")
    read = (ROOT / path).read_bytes()
    if not part:
        return read
    text = read.decode()
    try:
        if path.endswith(".md"):
            lines = [line for line, _ in (function(text, part) if part in FUNCTIONS else listing(text, *part.split("-")).values())]
        elif path.endswith(".S"):
            lines = program(text, part)
        elif path.endswith(".edits"):
            mutant, _, name = part.partition("-")
            lines = [f"{word:08x}" for word in table(edited((ROOT / path).parent, mutant), name)]
        else:
            lines = [f"{word:08x}" for word in table(text, part)]
    except (KeyError, IndexError, TypeError) as error:
        raise NoSuchPart(f"{name}: no such part") from error
    return "".join(f"{line}\n" for line in lines).encode()
