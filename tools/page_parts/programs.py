"""The program that answers: the one that ./ztso runs, or one that is named; and which of its commands it has."""

import os
import subprocess
import sys
import tempfile
from concurrent.futures import ThreadPoolExecutor
from dataclasses import dataclass
from pathlib import Path

import bring_parts
from bring_parts import REFERENCE, provenance
from page_parts import ROOT

SAID_OF_REFERENCE = "the second implementation, of which nothing is proved"
SMALL = "RISCV SMALL\n{ }\n P0 ;\n nop ;\nexists (x=0)\n"
# commands and options that not every program has, each with words that it takes
PROBES = {"threads": ["threads", "test.litmus", "--turns", "1"], "find": ["find", "test.litmus", "--states", "1"],
          "show": ["show", "test.litmus"], "svg": ["chart", "--svg", "test.litmus", "test.schedule"],
          "memory": ["chart", "--memory", "test.litmus", "test.schedule"]}


class Missing(Exception):
    """There is no program, in words for who asked."""


@dataclass(frozen=True)
class Program:
    path: Path
    # the names of PROBES that it takes
    can: frozenset

    def named(self):
        """How the page names it."""
        return str(self.path.relative_to(ROOT)) if self.path.is_relative_to(ROOT) else self.path.name

    def unproved(self):
        """What the page says of it if nothing is proved of it, or nothing."""
        said = SAID_OF_REFERENCE if self.is_reference() else provenance.SAID.get(provenance.kind_of(self.path))
        return f"The program {self.named()}: {said}." if said else ""

    def is_reference(self):
        return self.path == REFERENCE


def found(named=None):
    """The program that is named, or the one that ./ztso runs, which is made first where it isn't there."""
    path = Path(named).resolve() if named else made()
    if path.is_dir() or not os.access(path, os.X_OK):
        raise Missing(f"{path}: no such program")
    with ThreadPoolExecutor() as pool:
        taken = pool.map(lambda words: takes(path, words), PROBES.values())
        return Program(path, frozenset(name for name, is_taken in zip(PROBES, taken) if is_taken))


def made():
    if path := bring_parts.chosen():
        return path
    if not bring_parts.CHOOSER.exists():
        raise Missing("there is no program here, and no sources to build it of: name it by --program")
    print("page: the second implementation answers, tools/reference/ztso, of which nothing is proved", file=sys.stderr)
    return REFERENCE


def takes(path, words):
    """Whether a command line is one of the program's."""
    with tempfile.TemporaryDirectory(prefix="ztso-page-") as folder:
        Path(folder, "test.litmus").write_text(SMALL)
        Path(folder, "test.schedule").write_text("ztso-schedule 1\n")
        try:
            done = subprocess.run([path, *words], cwd=folder, stdin=subprocess.DEVNULL, capture_output=True,
                                  timeout=60, check=False)
        except (OSError, subprocess.TimeoutExpired) as error:
            raise Missing(f"{path}: {error}") from None
    return b"bad command line" not in done.stderr
