"""The crates of this repository, as crates.txt lists them."""

from pathlib import Path

TOP = Path(__file__).resolve().parent.parent
SOURCES = ("src", "specs", "proofs")


class Crates:
    """The names of crates, lowest first, and for each the crates of this repository that it uses."""

    def __init__(self, listed):
        self.listed = listed
        self.uses = {name: [low for low in lows if low in listed] for name, lows in listed.items()}
        self.names = sorted(self.uses, key=lambda name: len(self.below(name)))

    @classmethod
    def read(cls):
        uses = {}
        for line in (TOP / "crates.txt").read_text().splitlines():
            if line.strip() and not line.startswith("#"):
                head, _, libraries = line.partition(":")
                uses[head.split()[0]] = libraries.split()
        return cls(uses)

    def libraries(self, name):
        """The libraries that a crate uses of itself, the kit's too."""
        return self.listed[name]

    def below(self, name):
        """The crates that a crate uses, of itself and by others."""
        found = set()
        for low in self.uses[name]:
            found |= {low} | self.below(low)
        return found

    def above(self, names):
        """These crates, and all that use one of them, lowest first."""
        return [name for name in self.names if name in names or self.below(name) & set(names)]

    def stale(self, names):
        """Those of these crates whose sources, or those below them, are newer than what was proved."""
        changed = {name for name in names if is_newer(TOP / "crates" / name)}
        return [name for name in self.above(changed) if name in names]


def is_newer(crate):
    """Whether a source of a library is newer than its stamp, or a folder of sources has lost a file since."""
    stamp = crate / "out/rlib/stamp"
    if not stamp.is_file():
        return True
    proved = stamp.stat().st_mtime_ns
    return any(path.stat().st_mtime_ns > proved for part in SOURCES for path in [crate / part, *(crate / part).rglob("*")] if path.exists())
