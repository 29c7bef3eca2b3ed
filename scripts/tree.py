"""What scripts/install and scripts/make-package put below a prefix: each file's place there with what it is made of.

Below share/ztso the folders have the names that they have in the repository, so that the links of the pages and the
commands that they show hold there too.
"""

import os
import sys
from pathlib import Path
from typing import NamedTuple

TOP = Path(__file__).resolve().parent.parent
sys.path.append(str(TOP / "tools"))

from bring_parts import provenance  # noqa: E402

SHARE = "share/ztso"
# where zsh looks for completions of what Debian's packages hold, and elsewhere
ZSH, ZSH_OF_DEBIAN = "share/zsh/site-functions/_ztso", "share/zsh/vendor-completions/_ztso"
# the tools that are commands, as ztso-page and on
TOOLS = ("page", "from-c", "from-object", "make-rust-core", "chart-lines", "compare-mappings", "from-herd", "to-litmus-log", "allowed",
         "channel-text", "for-ci", "core-log-to-record", "merge-tries", "tries-over-machines", "certify", "queue")
COMMANDS = {
    "bin/ztso": "ztso",
    "bin/ztso-explain": "tools/explain",
    **{f"bin/ztso-{name}": "scripts/ztso-tool" for name in TOOLS},
    "lib/ztso/at-terminal": "scripts/at-terminal",
    "lib/ztso/about-test": "scripts/about-test",
    "lib/ztso/drawing": "scripts/drawing",
    # what the pages call by these names, in the folder share/ztso
    **{f"{SHARE}/{name}": name for name in (
        *(f"tools/{tool}" for tool in TOOLS), "tools/explain", *(f"tools/reference/{name}" for name in ("ztso", "explore", "axioms")),
        "examples/core/check", "examples/core/planted", "examples/core/draw-tests", "examples/bare-metal/on-harts")},
}
TEXTS = {
    "lib/ztso/usage.awk": "scripts/usage.awk",
    "lib/ztso/words.awk": "scripts/words.awk",
    "share/man/man1/ztso.1": "docs/ztso.1",
    # bash and fish look for a file of a command's own name
    **{f"share/bash-completion/completions/{name}": "scripts/completion.bash" for name in ("ztso", *(f"ztso-{tool}" for tool in TOOLS))},
    ZSH: "scripts/completion.zsh",
    **{f"share/fish/vendor_completions.d/{name}.fish": "scripts/completion.fish" for name in ("ztso", *(f"ztso-{tool}" for tool in TOOLS))},
    **{f"{SHARE}/{name}": name for name in ("VERSION", "docs/commands.tsv", "docs/rings.tsv", "examples/firmware-queue/Makefile",
                                        "cases/kit/parts.py")},
    # README.md, and each page outside of the folders below that it links
    **{f"{SHARE}/{name}": name for name in (
        "README.md", "CHANGELOG.md", "CONTRIBUTING.md", "tools/README.md", "tools/reference/README.md", "crates/README.md",
        "crates/mutants.md", "stock/README.md", "tests/README.md", "tests/outside/README.md", "scripts/README.md", "cases/README.md")},
}
# the folders of the pages, the shelf, the examples and what the tools are made of, with what their files are
FOLDERS = {
    "docs": (".md", ".png", ".svg", ".json"),
    # to read: its page links each
    "bench": ("", ".md", ".py", ".c", ".rs", ".rattle", ".pml", ".litmus"),
    "litmus": (".litmus", ".expected", ".md"),
    "examples": (".litmus", ".certificate", ".schedule", ".steps", ".lists", ".asm", ".words", ".c", ".cpp", ".rs", ".h", ".s", ".S", ".ld",
                 ".log", ".spike", ".vcd", ".md", ".py", ".sv", ".edits", ".yml", ".txt"),
    "tools/page_parts": (".py", ".html", ".css", ".js", ".svg"),
    "tools/bring_parts": (".py", ".c", ".h"),
    "tools/core_log_parts": (".py",),
    "tools/certify_parts": (".py",),
    "tools/reference": (".py",),
}
LEFT_OUT = ("out", "__pycache__")
# an installed tool writes nothing beside the modules that it reads: what isn't on the list of what was installed couldn't be taken away
STARTS, STARTS_INSTALLED = b"#!/usr/bin/env python3\n", b"#!/usr/bin/env -S python3 -B\n"
# where the page by a link is put
PAGE = f"{SHARE}/page"


class File(NamedTuple):
    place: str
    content: bytes
    executable: bool


def below(folder, suffixes):
    """The files of a folder of the repository, by their names from its top."""
    for at, folders, names in os.walk(TOP / folder):
        folders[:] = sorted(name for name in folders if name not in LEFT_OUT and not name.startswith("."))
        there = (Path(at, name) for name in sorted(names))
        yield from (path.relative_to(TOP).as_posix() for path in there if path.suffix in suffixes)


def files(program, page=None):
    """Each file below a prefix, sorted by its place, with this program, the mark that says what built it and, where there is one, the folder
    of a page by a link."""
    yield from sorted([
        *(File(f"{PAGE}/{path.name}", path.read_bytes(), False) for path in (page.iterdir() if page else ())),
        File("lib/ztso/ztso", Path(program).read_bytes(), True),
        File(f"lib/ztso/{provenance.MARK}", provenance.mark_of(program).encode(), False),
        *(File(f"share/man/man1/{name}.1", b".so man1/ztso.1\n", False) for name in ("ztso-explain", *(f"ztso-{tool}" for tool in TOOLS))),
        *(File(place, (TOP / name).read_bytes().replace(STARTS, STARTS_INSTALLED, 1), True) for place, name in COMMANDS.items()),
        *(File(place, (TOP / name).read_bytes(), False) for place, name in TEXTS.items()),
        *(File(f"{SHARE}/{name}", (TOP / name).read_bytes(), False)
          for folder, suffixes in FOLDERS.items() for name in below(folder, suffixes)),
    ])


def version():
    return (TOP / "VERSION").read_text().strip()
