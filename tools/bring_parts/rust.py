"""Objects of Rust: by which `core` rustc makes them."""

from pathlib import Path

from bring_parts import Refused, compilers

FLAGS = ("--edition 2021 --crate-type lib --emit obj -C opt-level=2 -C panic=abort -C debuginfo=2 -C codegen-units=1 "
         # or of two functions that are equal one has no parameters
         "-Z unstable-options -Z merge-functions=disabled -A dead_code -A non_snake_case").split()
# targets of rustup that have a `core` with atomic words; what they have beyond RV32IA is expanded, or left out by a flag
READY = ("riscv32ima-unknown-none-elf", "riscv32imac-unknown-none-elf")
TARGET = "riscv32ia.json"


def compile_to(source, module, rustc="rustc", core=None, flags=()):
    """Compiles a file to a module; returns the compiler's version, and the flags by which it did."""
    words = list(map(str, [*target_words(rustc, core), *FLAGS, *flags]))
    variables = {"RUSTC_BOOTSTRAP": "1", "TMPDIR": str(Path(module).parent)}
    try:
        compilers.output([rustc, *words, *(["-L", core] if core else []), "-o", module, source], variables)
    except Refused as refused:
        raise said_otherwise(refused) from None
    return compilers.output([rustc, "--version"]).strip(), [Path(each).name if each.endswith(TARGET) else each for each in words]


def target_words(rustc, core):
    """The target with its `core`: in the folder that is named, or one that rustup has brought."""
    if core:
        if not Path(core, TARGET).is_file():
            raise Refused(f"{core} has no {TARGET}: tools/make-rust-core {core} makes a `core` there")
        return ["--target", Path(core, TARGET)]
    root = Path(compilers.output([rustc, "--print", "sysroot"]).strip(), "lib/rustlib")
    ready = next((name for name in READY if (root / name / "lib").is_dir()), None)
    if not ready:
        raise Refused(f"{rustc} has no `core` for RV32: `rustup target add {READY[-1]}` brings one if it is rustup's; for Debian's rustc "
                      "tools/make-rust-core FOLDER makes one of rust-src, for --rust-core FOLDER")
    return ["--target", ready, "-C", "target-feature=-m"]


def said_otherwise(refused):
    """What rustc complains of, with what helps."""
    text = "\n".join(refused.before)
    if "can't find crate for `std`" in text:
        return Refused(f"{refused}: there is no operating system: begin the file with #![no_std], and take `core` for `std`",
                       refused.before)
    if any(each in text.lower() for each in ("e0514", "incompatible version of rustc", "error loading target specification")):
        return Refused(f"{refused}: --rust-core has a `core` of another rustc: name that rustc by --rustc, or make a `core` by this one",
                       refused.before)
    if "AtomicU64" in text or "AtomicI64" in text:
        return Refused(f"{refused}: RV32 has no atomic object of 64 bits", refused.before)
    return refused
