"""The program that is packed, with what its file says of the systems that run it."""

import re
import subprocess

import tree
from bring_parts import provenance
from package_parts import Refused

# an ELF file's number of a machine: its name, and Debian's
MACHINES = {62: ("x86_64", "amd64"), 183: ("aarch64", "arm64"), 243: ("riscv64", "riscv64")}
# the Debian packages of the libraries that a program may need
LIBRARIES = {b"libc.so.6": "libc6", b"libm.so.6": "libc6", b"libpthread.so.0": "libc6", b"libdl.so.2": "libc6",
             b"ld-linux-x86-64.so.2": "libc6", b"libgcc_s.so.1": "libgcc-s1"}


class Program:
    def __init__(self, path):
        self.path = path
        try:
            content = path.read_bytes()
        except OSError as error:
            raise Refused(f"{path}: {error.strerror}") from None
        number = int.from_bytes(content[18:20], "little")
        if content[:6] != b"\x7fELF\x02\x01" or number not in MACHINES:
            raise Refused(f"{path}: is no program for Linux on {', '.join(name for name, _ in MACHINES.values())}")
        self.machine, self.debian = MACHINES[number]
        self.content = content
        self.built = provenance.kind_of(path)

    def package(self):
        """The name of a package that holds it."""
        return "ztso" if self.built == provenance.PROVED else "ztso-unproved"

    def depends(self):
        """What a Debian package of it depends on: the C library from the newest version on that it asks for."""
        needed = set(re.findall(rb"\0((?:lib|ld-)[\w.+-]+\.so[.\d]*)(?=\0)", self.content))
        if unknown := sorted(name.decode() for name in needed - LIBRARIES.keys()):
            raise Refused(f"{self.path}: needs {', '.join(unknown)}, which is in no package that scripts/make-package knows")
        asked = [tuple(map(int, version.split(b"."))) for version in re.findall(rb"\0GLIBC_(\d+(?:\.\d+)+)(?=\0)", self.content)]
        libc = f"libc6 (>= {'.'.join(map(str, max(asked)))})" if asked else "libc6"
        return ", ".join([libc, *sorted({LIBRARIES[name] for name in needed} - {"libc6"})])


def built():
    """The program as scripts/build proves and builds it."""
    if subprocess.run([tree.TOP / "scripts/build"], stdin=subprocess.DEVNULL, check=False).returncode:
        raise Refused("the program isn't built")
    return tree.TOP / "crates/ztso/out/ztso"
