"""The Debian package: the same files below /usr, with what Debian asks for beside them."""

import email.utils
import gzip
import hashlib
import os
import shutil
import subprocess
import tempfile
from pathlib import Path

import tree
from bring_parts import provenance
from package_parts import Refused

MAINTAINER = "Halvizga maintainers <maintainers@users.noreply.halvizga.example>"
SUMMARY = "run small RISC-V programs under the memory model Ztso"
DESCRIPTION = """\
Several RISC-V harts (RV32I and the word AMOs) with FIFO store buffers over
one memory, one event at a time: litmus tests are run, tried by drawn
schedules, searched, drawn as pictures, shortened and debugged, and every run
can be replayed. Of a queue between two harts it can show that every run keeps
its protocol.
"""
# what is said of the program
BUILT = {
    provenance.PROVED: """\
The program is proved to follow the model, each function against its
contract.
""",
    provenance.BY_RUSTC: """\
This program was built by rustc, and nothing is proved of it. It is made of
the sources that ./prove proves, each function against its contract.
""",
    provenance.UNKNOWN: """\
What built this program isn't known, so nothing of it is taken as proved.
""",
}
COPYRIGHT = """\
ztso

Copyright (C) 2026 the authors of ztso

No licence is granted yet; the choice is open. All rights are reserved.
"""
# lintian asks for a program without its table of symbols. This one is, byte for byte, the one that was tested.
OVERRIDES = """\
# the very bytes of the program that was tested
{package}: unstripped-binary-or-object [usr/lib/ztso/ztso]
"""


def changelog(package, epoch):
    return (f"{package} ({tree.version()}) unstable; urgency=medium\n\n  * /usr/share/ztso/CHANGELOG.md has the changes.\n\n"
            f" -- {MAINTAINER}  {email.utils.formatdate(epoch)}\n")


def control(program, files):
    size = sum(-(-len(content) // 1024) for content, _ in files.values())
    description = "".join(f" {line}\n" for line in (DESCRIPTION + BUILT[program.built]).splitlines())
    package = program.package()
    # both have the same files
    other, = {"ztso", "ztso-unproved"} - {package}
    summary = SUMMARY if program.built == provenance.PROVED else f"{SUMMARY} (not proved)"
    return (f"Package: {package}\nVersion: {tree.version()}\nArchitecture: {program.debian}\nMaintainer: {MAINTAINER}\n"
            f"Installed-Size: {size}\nDepends: {program.depends()}\nRecommends: python3\nConflicts: {other}\nReplaces: {other}\nSection: devel\n"
            f"Priority: optional\nDescription: {summary}\n{description}")


def packed(content):
    return gzip.compress(content, 9, mtime=0)


def in_debian(package, files, epoch):
    """The files of the package by their places, each with its content and whether it is a program."""
    placed = {}
    for place, content, executable in files:
        if place.startswith("share/man/"):
            place, content = f"{place}.gz", packed(content)
        placed["usr/" + place.replace(tree.ZSH, tree.ZSH_OF_DEBIAN)] = content, executable
    placed[f"usr/share/doc/{package}/changelog.gz"] = packed(changelog(package, epoch).encode()), False
    placed[f"usr/share/lintian/overrides/{package}"] = OVERRIDES.format(package=package).encode(), False
    placed[f"usr/share/doc/{package}/copyright"] = COPYRIGHT.encode(), False
    return placed


def write(folder, program, files, epoch):
    """Makes the package by dpkg-deb."""
    if not shutil.which("dpkg-deb"):
        raise Refused("there is no command dpkg-deb: apt-get install dpkg")
    placed = in_debian(program.package(), files, epoch)
    sums = "".join(f"{hashlib.md5(content).hexdigest()}  {place}\n" for place, (content, _) in sorted(placed.items()))
    path = folder / f"{program.package()}_{tree.version()}_{program.debian}.deb"
    with tempfile.TemporaryDirectory(prefix="ztso-package-") as name:
        top = Path(name, "ztso")
        for place, (content, executable) in {
                **placed, "DEBIAN/control": (control(program, placed).encode(), False),
                "DEBIAN/md5sums": (sums.encode(), False)}.items():
            file = top / place
            file.parent.mkdir(parents=True, exist_ok=True)
            file.write_bytes(content)
            file.chmod(0o755 if executable else 0o644)
        for at, *_ in os.walk(top):
            os.chmod(at, 0o755)
        done = subprocess.run(["dpkg-deb", "--root-owner-group", "-Zxz", "-z9", "--threads-max=1", "--build", top, path],
                              env={**os.environ, "SOURCE_DATE_EPOCH": str(epoch)}, capture_output=True, text=True, check=False)
    if done.returncode:
        raise Refused(f"dpkg-deb: {done.stderr.strip()}")
    return path
