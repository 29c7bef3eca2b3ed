"""Compilers of Rust by the words of a command line, each by names that texts may have."""

import os
import shlex
from pathlib import Path

from bring_parts.making import Way

VERSIONS = ("1.63", "1.96")


def ways(named, folder):
    """The ways of compiling Rust by words VERSION=RUSTC,CORE. In this folder, which comes onto the PATH, each has a command
    rustc-VERSION, and a folder with its rust-core."""
    made = {}
    for version, _, words in (each.partition("=") for each in named):
        rustc, core = (Path(path).absolute() for path in words.split(","))
        command, there = Path(folder, f"rustc-{version}"), Path(folder, version)
        there.mkdir()
        (there / "rust-core").symlink_to(core)
        # no link: rustup's command asks what it is called
        command.write_text(f'#!/bin/sh\nexec {shlex.quote(str(rustc))} "$@"\n')
        command.chmod(0o755)
        made[f"rust-{version}"] = Way(rustc=command.name, rust_core=str(there / "rust-core"))
    if made:
        os.environ["PATH"] = f"{folder}{os.pathsep}{os.environ['PATH']}"
    return made
