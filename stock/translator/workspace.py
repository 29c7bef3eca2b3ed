"""The cargo workspace: which files it has, and writing only those that are new."""

import json
from pathlib import Path

from . import source
from .pieces import Refused, line_of

STOCK = Path(__file__).resolve().parent.parent
TOP = STOCK.parent
# Libraries that crates.txt names and that are none of this repository's crates; `std` is every crate's.
LIBRARIES = {name: f"stand_ins/{name}" for name in ("clap", "indexmap", "rand_core", "rand_pcg", "thiserror")}
LIBRARIES["arrayvec"] = "vendor/arrayvec"
COPIED = ("stand_ins", "vendor")
PROFILES = """
[profile.release]
panic = "abort"
codegen-units = 16
lto = "off"
incremental = true

[profile.unoptimized]
inherits = "release"
opt-level = 0
codegen-units = 4
incremental = false
strip = "none"

[profile.checked]
inherits = "release"
overflow-checks = true
debug-assertions = true

[profile.dev]
debug = "line-tables-only"
"""


class Faults(Exception):
    """Lines for the reader, each with the file and the line of what the translator doesn't understand."""


def crates():
    """Each crate's name with the libraries that it uses, as crates.txt lists them."""
    for line in (TOP / "crates.txt").read_text().splitlines():
        if line.strip() and not line.startswith("#"):
            head, _, uses = line.partition(":")
            yield head.split()[0], uses.split()


def manifest_of(name, uses):
    lines = ["[package]", f'name = "{name}"', 'version = "0.0.0"', 'edition = "2024"', 'rust-version = "1.85"', "publish = false", "",
             "[lints]", "workspace = true", "", "[dependencies]",
             'std = { package = "kit_std", path = "../../stand_ins/kit_std" }']
    for low in uses:
        folder = LIBRARIES.get(low, f"crates/{low}")
        lines.append(f'{low} = {{ path = "../../{folder}", default-features = false }}')
    return "\n".join(lines) + "\n"


def workspace_manifest(names, stand_ins):
    stand_ins = [f"stand_ins/{name}" for name in stand_ins]
    members = [*stand_ins, *(f"crates/{name}" for name in names)]
    # What `cargo test` tests where no package is named.
    tested = [*stand_ins, *(f"crates/{name}" for name in names if name.startswith("tests_"))]
    # The sources are judged by the kit, which names imports for its proofs that stock Rust finds unused.
    lints = '[workspace.lints.rust]\nwarnings = "allow"\n[workspace.lints.clippy]\nall = "allow"\n'
    listed = f"members = {json.dumps(members)}\ndefault-members = {json.dumps(tested)}"
    return f'[workspace]\nresolver = "2"\n{listed}\nexclude = ["vendor"]\n\n{lints}{PROFILES}'


class Kept:
    """What an earlier call translated: for each source its stamp, and that of the translator."""

    def __init__(self, path):
        self.path, self.now = path, {}
        try:
            self.before = json.loads(path.read_text())
        except (OSError, ValueError):
            self.before = {}
        own = sorted(Path(__file__).parent.glob("*.py"))
        self.now["translator"] = [stamp_of(path) for path in own]
        if self.before.get("translator") != self.now["translator"]:
            self.before = {}

    def is_fresh(self, name, path, target):
        self.now[name] = stamp_of(path)
        return self.before.get(name) == self.now[name] and target.is_file()

    def write(self):
        self.path.write_text(json.dumps(self.now))


def stamp_of(path):
    status = path.stat()
    return [status.st_mtime_ns, status.st_size]


class Workspace:
    """The folder that is written, and which files belong to it."""

    def __init__(self, folder):
        self.folder, self.files, self.faults = folder, set(), []

    def put(self, name, content):
        """Writes a file where it isn't there with this content, so that cargo sees what changed by its time."""
        target = self.folder / name
        self.files.add(target)
        if not target.is_file() or target.read_bytes() != content:
            target.parent.mkdir(parents=True, exist_ok=True)
            target.write_bytes(content)

    def put_source(self, kept, crate, path):
        """A source file of a crate, translated where it changed."""
        below = path.relative_to(TOP / "crates" / crate)
        name = f"crates/{crate}/{below.with_suffix('.rs').as_posix()}"
        if kept.is_fresh(str(path.relative_to(TOP)), path, self.folder / name):
            self.files.add(self.folder / name)
            return
        text = path.read_text(encoding="utf-8")
        try:
            self.put(name, source.translated(text, below.as_posix() in ("src/lib.rt", "src/main.rt")).encode())
        except Refused as refused:
            self.faults.append(f"{path.relative_to(TOP)}:{line_of(text, refused.at)}: {refused.why}")

    def remove_others(self):
        """Removes the files of crates that are gone from the sources."""
        for part in ("crates", *COPIED):
            for path in sorted((self.folder / part).rglob("*"), reverse=True):
                if path.is_dir():
                    if not any(path.iterdir()):
                        path.rmdir()
                elif path not in self.files:
                    path.unlink()


def write(out):
    """Brings the workspace in `out`/workspace up to date."""
    space, kept = Workspace(out / "workspace"), Kept(out / "translated.json")
    listed = dict(crates())
    for crate, uses in listed.items():
        for path in sorted((TOP / "crates" / crate / "src").rglob("*.rt")):
            space.put_source(kept, crate, path)
        space.put(f"crates/{crate}/Cargo.toml", manifest_of(crate, uses).encode())
    if space.faults:
        raise Faults("\n".join(space.faults))
    stand_ins = sorted(path.parent.name for path in (STOCK / "stand_ins").glob("*/Cargo.toml"))
    for path in (path for part in COPIED for path in sorted((STOCK / part).rglob("*")) if path.is_file()):
        space.put(path.relative_to(STOCK).as_posix(), path.read_bytes())
    space.put("Cargo.toml", workspace_manifest(listed, stand_ins).encode())
    space.remove_others()
    kept.write()
