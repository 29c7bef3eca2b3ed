"""The languages of sources, by the suffixes of their files."""

from pathlib import Path

from bring_parts import Refused

C, CXX, RUST, ASSEMBLY, PLAIN_ASSEMBLY, OBJECT = "C", "C++", "Rust", "assembly", "assembly without macros", "object"
LANGUAGES = {".c": C, ".litmus": C, ".cc": CXX, ".cpp": CXX, ".cxx": CXX, ".C": CXX, ".rs": RUST, ".S": ASSEMBLY, ".s": PLAIN_ASSEMBLY,
             ".asm": PLAIN_ASSEMBLY, ".o": OBJECT, ".obj": OBJECT}
# those of which a mapping takes the atomic operations
MAPPED = (C, CXX)


def language_of(path):
    """The language of a file, or None."""
    return LANGUAGES.get(Path(path).suffix)


def known(path):
    """The language of a file, which must have one."""
    language = language_of(path)
    if language is None:
        raise Refused(f"{Path(path).name}: its suffix is none of {' '.join(LANGUAGES)}")
    return language
