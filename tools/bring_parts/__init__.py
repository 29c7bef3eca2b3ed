"""What the tools that bring tests in and out share: tools/from-c, from-herd, to-litmus-log, allowed and
compare-mappings. Litmus texts and schedules are read by tools/reference, and by nothing here."""

import argparse
import os
import re
import shlex
import shutil
import subprocess
import sys
from difflib import SequenceMatcher
from pathlib import Path

TOOLS = Path(__file__).resolve().parent.parent
ROOT = TOOLS.parent
# what chooses the program of a checkout, and makes it; an installation has its program instead
CHOOSER, INSTALLED = ROOT / "scripts/program", ROOT.parent.parent / "lib/ztso/ztso"
REFERENCE = TOOLS / "reference/ztso"
sys.path.insert(0, str(TOOLS / "reference"))

from faults import ended  # noqa: E402, F401

from . import provenance  # noqa: E402

# what the program reads of a text at most
MOST = 1 << 20
# this many names are named in place of one that isn't there, if this much of them is the same
NEAREST, LIKE = 3, 0.6


class Refused(Exception):
    """What can't be brought, in words for its author; `before` are lines of another program, which come before them, of `whole`, all that it says."""

    def __init__(self, words, before=(), whole=()):
        super().__init__(words)
        self.before, self.whole = before, whole or before


def nearest(name, names):
    """The names that are most like this one, capitals aside: three at most, or none."""
    alike = [(SequenceMatcher(None, name.lower(), each.lower()).ratio(), each) for each in names]
    return [each for ratio, each in sorted(alike, key=lambda row: -row[0]) if ratio >= LIKE][:NEAREST]


def listed(words):
    """Words as a sentence has them: `a`, `a and b`, `a, b and c`."""
    return " and ".join(filter(None, [", ".join(words[:-1]), *words[-1:]]))


def plain(text):
    """A stranger's text, as a terminal may show it: `?` for each character that isn't printable."""
    return "".join(each if each.isprintable() else "?" for each in text)


def complain(tool, *words, before=()):
    """Says on standard error what is wrong: after the lines of another program, a line of the tool's own."""
    for line in [*before, ": ".join(map(str, [tool, *words]))]:
        print(plain(line), file=sys.stderr)


class Words(argparse.ArgumentParser):
    """The words of a tool's command line, by the text at the tool's top: that is its help, and the lines that begin
    with `tools/`, `tests/` or `examples/` its usage, with those in which they go on."""

    def __init__(self, text):
        lines = re.findall(r"^(?:(?:tools|tests|examples)/|ztso try).*(?:\n +\[.*)*", text, re.MULTILINE)
        super().__init__(usage="\n       ".join(line.replace("\n", "\n       ") for line in lines))
        self.text = text

    def format_help(self):
        return self.text.strip() + "\n"


def typed(tool):
    """How a tool is typed in this folder: its path, or its command where it is installed on the PATH."""
    path = TOOLS / tool
    if not CHOOSER.exists() and shutil.which(f"ztso-{tool}"):
        return f"ztso-{tool}"
    near = Path("tools", tool)
    return str(near) if near.exists() and near.samefile(path) else shlex.quote(str(path))


def text_of(path, most=MOST):
    """The text of a file."""
    try:
        with open(path, "rb") as file:
            content = file.read(most + 1)
    except OSError as error:
        raise Refused(f"{path}: {error.strerror}") from None
    if len(content) > most:
        raise Refused(f"{path}: it has more than {most} bytes")
    try:
        return content.decode()
    except UnicodeDecodeError:
        raise Refused(f"{path}: it is no UTF-8") from None


def put(path, text):
    """Writes a file whole, or not at all, and makes its folders."""
    path = Path(path).resolve()
    part = path.with_name(f".{path.name}.{os.getpid()}")
    try:
        path.parent.mkdir(parents=True, exist_ok=True)
        if path.exists() and not path.is_file():
            path.write_text(text)  # a device, or what else takes no other file's place
            return
        part.write_text(text)
        part.replace(path)
    except OSError as error:
        raise Refused(f"{path}: {error.strerror}") from None
    finally:
        if part.exists():
            part.unlink()


def program_of(named=None, *, says=False):
    """The program that is named, or the one that ./ztso runs, or the reference where there is none. With `says` standard error says if
    nothing is proved of it, and at first one may answer that isn't optimized."""
    program = Path(named) if named else chosen(says)
    if not program:
        print("the second implementation answers, tools/reference/ztso, of which nothing is proved", file=sys.stderr)
        program = REFERENCE
    if program.is_dir() or not os.access(program, os.X_OK):
        raise Refused(f"{program}: no such program; ./ztso --which makes and names one")
    return program.resolve()


def chosen(says=False):
    """The program that ./ztso runs, made if it isn't there, or None."""
    if not CHOOSER.exists():
        if says and INSTALLED.exists() and (said := provenance.SAID.get(provenance.kind_of(INSTALLED))):
            print(f"ztso: {said}", file=sys.stderr)
        return INSTALLED if INSTALLED.exists() else None
    made = subprocess.run([CHOOSER, "--first" if says else "--quiet"], stdin=subprocess.DEVNULL, stdout=subprocess.PIPE, text=True, check=False)
    return None if made.returncode else Path(made.stdout.strip())


def answer(program, *words, text=""):
    """What the program prints, where this text stands on standard input. A verdict that doesn't hold is no fault."""
    try:
        done = subprocess.run([str(program), *map(str, words)], input=text, capture_output=True, text=True, check=False)
    except OSError as error:
        raise Refused(f"{program}: {error.strerror}; ./ztso --which makes and names one") from None
    if done.returncode not in (0, 1) or done.stderr:
        raise Refused(f"{' '.join(map(str, words))}: {done.stderr.strip() or f'status {done.returncode}'}")
    return done.stdout
