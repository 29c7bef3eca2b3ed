"""What built a program. Of one that rustc built its bytes say so, wherever it lies. Other programs of a checkout are known by their bytes, and others by a
mark beside them, which scripts/install and scripts/make-package write: a word, and the digest of the program that it is said of."""

import hashlib
import subprocess
from pathlib import Path

ROOT = Path(__file__).resolve().parents[2]
MARK = "built"
PROVED, BY_RUSTC, UNKNOWN = "proved", "rustc", "unknown"
# what is said of a program of which nothing is proved
SAID = {BY_RUSTC: "built by rustc, and nothing is proved of it", UNKNOWN: "what built it isn't known, so nothing of it is taken as proved"}
# what stands in each program that rustc built: stock/stand_ins/kit_std/src/start.rs
OF_RUSTC = b"ztso: built by rustc, and nothing is proved of this program"
# the programs of a checkout
KEPT, STOCK = "crates/ztso/out/ztso", ("stock/out/ztso", "stock/out/ztso-unoptimized", "stock/out/ztso-checked")


def digest_of(path):
    return hashlib.sha256(Path(path).read_bytes()).hexdigest()


def mark_of(path):
    """The mark's text for a program."""
    return f"{kind_of(path)} {digest_of(path)}\n"


def kind_of(path):
    """What built a program, as far as that is known: by what its bytes say, in a checkout by the place of these bytes, elsewhere by the mark beside it, if
    that is of these very bytes."""
    if OF_RUSTC in Path(path).read_bytes():
        return BY_RUSTC
    digest = digest_of(path)
    if is_file_of(digest, KEPT) and subprocess.run([ROOT / "scripts/build", "--is-current"], stdin=subprocess.DEVNULL, check=False).returncode == 0:
        return PROVED
    if any(is_file_of(digest, name) for name in STOCK):
        return BY_RUSTC
    try:
        word, marked = Path(path).with_name(MARK).read_text().split()
    except (OSError, ValueError):
        return UNKNOWN
    return word if marked == digest and word in (PROVED, BY_RUSTC) else UNKNOWN


def is_file_of(digest, name):
    """Whether a file of the checkout has these bytes."""
    return (ROOT / name).is_file() and digest_of(ROOT / name) == digest
