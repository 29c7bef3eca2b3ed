"""What the trials of tests/installing share."""

import os
import pty
import select
import shutil
import subprocess
import time
from contextlib import contextmanager
from pathlib import Path
from tempfile import TemporaryDirectory

import tree
from bring_trials import counting

SECONDS = 120
# the program that is proved, and those by rustc, of this checkout; and what each call of an installed copy of others says
PROVED, BY_RUSTC = tree.TOP / "crates/ztso/out/ztso", ("ztso", "ztso-unoptimized", "ztso-checked")
NOT_PROVED = "ztso: built by rustc, and nothing is proved of it\n"
NOT_KNOWN = "ztso: what built it isn't known, so nothing of it is taken as proved\n"
SB = ("litmus/store-buffering/sb.litmus", "examples/store-buffering.schedule")


class Count(counting.Count):
    def same(self, name, came, wanted):
        """Takes in whether something is as it should be."""
        self.told(name, came == wanted, f"{came!r}, wanted {wanted!r}")

    def there(self, command, of):
        """Whether a command is there, without which something isn't tried."""
        if not shutil.which(command):
            print(f"  not tried: {of}, since there is no {command}", flush=True)
        return shutil.which(command)


def call(*words, folder=None, text=None, variables=None, umask=-1):
    """The status, standard output and standard error of a command, in pipes."""
    done = subprocess.run(list(map(str, words)), cwd=folder, input=text, text=True, capture_output=True, timeout=SECONDS,
                          env={**os.environ, **(variables or {})}, umask=umask, check=False)
    return done.returncode, done.stdout, done.stderr


def is_binary(program):
    return Path(program).read_bytes()[:4] == b"\x7fELF"


def said_of(program):
    """What each call says where a copy of the program is installed."""
    program = Path(program)
    if program == PROVED:
        return ""
    return NOT_PROVED if program.parent == tree.TOP / "stock/out" and program.name in BY_RUSTC else NOT_KNOWN


@contextmanager
def workplace(program):
    """A folder that goes at the end, and in it the program, by itself also where it is the reference."""
    with TemporaryDirectory(prefix="ztso-trial-") as name:
        folder = Path(name).resolve()
        alone = folder / "program"
        if is_binary(program):
            shutil.copy(program, alone)
        else:
            alone.write_text(f"#!/bin/sh\nexec '{program}' \"$@\"\n")
            alone.chmod(0o755)
        yield folder, alone


def install(*words, **options):
    return call(tree.TOP / "scripts/install", *words, **options)


def below(folder):
    """What is in a folder, by the names from there."""
    return sorted(path.relative_to(folder).as_posix() for path in folder.rglob("*"))


class Typed:
    """A command of which all streams are a pseudoterminal."""

    def __init__(self, words, folder, variables=None):
        self.content = b""
        self.number, self.outer = pty.fork()
        if not self.number:
            os.chdir(folder)
            os.execvpe(words[0], list(map(str, words)), {**os.environ, **(variables or {})})

    def type(self, text):
        os.write(self.outer, text.encode())

    def until(self, mark, seconds=20):
        """What came up to a mark."""
        end = time.monotonic() + seconds
        while mark not in self.content and time.monotonic() < end:
            if select.select([self.outer], [], [], 0.1)[0]:
                try:
                    self.content += os.read(self.outer, 1 << 16)
                except OSError:
                    break
        return self.content

    def end(self):
        os.close(self.outer)
        os.waitpid(self.number, 0)
