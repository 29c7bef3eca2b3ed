"""The compilers and binutils: which command is there, and what it prints."""

import os
import re
import resource
import shlex
import shutil
import signal
import subprocess
from pathlib import Path

from bring_parts import Refused, columns
from bring_parts.languages import ASSEMBLY, C, CXX, PLAIN_ASSEMBLY

HERE = Path(__file__).resolve().parent
# what compilers call where RV32I has no instruction, by a name that no author's file has
SUPPORT = HERE / "c/ztso-support.c"
FLAGS = ("-march=rv32ia -mabi=ilp32 -O2 -g -ffreestanding -fno-pic -mcmodel=medlow -msmall-data-limit=0 "
         "-fno-jump-tables -fdata-sections -fno-asynchronous-unwind-tables -fno-stack-protector").split()
# gcc makes one function of two that are equal, so that a hart would have none
FLAGS_OF = {"gcc": ["-fno-ipa-icf"], "clang": ["--target=riscv32-unknown-elf"]}
# of version 5 binutils 2.40 finds fewer of the calls that were made part of others
CXX_FLAGS = "-gdwarf-4 -std=c++20 -fno-exceptions -fno-rtti -fno-use-cxa-atexit -nostdinc++".split()
# of a compiler's flags those that assembly needs too
SHARED = ("-march", "-mabi", "-g", "--target")
KINDS = {C: "c", CXX: "c++", ASSEMBLY: "assembler-with-cpp", PLAIN_ASSEMBLY: "assembler"}
USUAL = {"gcc": ("riscv64-unknown-elf-gcc", "riscv64-linux-gnu-gcc"), "clang": ("clang",)}
PREFIXES = ("riscv64-unknown-elf-", "riscv64-linux-gnu-")
BINUTIL = "riscv64-unknown-elf-objdump"
PACKAGES = {"riscv64-unknown-elf-gcc": "gcc-riscv64-unknown-elf", "riscv64-unknown-elf-g++": "gcc-riscv64-unknown-elf",
            "riscv64-linux-gnu-gcc": "gcc-riscv64-linux-gnu", "clang": "clang", "clang++": "clang",
            BINUTIL: "binutils-riscv64-unknown-elf", "rustc": "rustc"}
SECONDS, FILE_BYTES, LINES = 60, 16 << 20, 12
# what binutils says of an object that is newer than it, and what helps
UNKNOWN = re.compile(r"(?:unrecognized|unsupported|unknown) relocation|relocation count is negative")
TOO_OLD = ": it may be older than the compiler: compile with -gdwarf-4, as by --flag=-gdwarf-4, or take newer binutils"
# of a header that lies beside the one that includes it by <..> clang says that it isn't found so, which is no fatal error
NO_HEADER = re.compile(r"error: '?([^':]+)'?(?:: No such file or directory| file not found)")
# an instruction that GNU as knows, and not of this machine
NO_EXTENSION = re.compile(r"(?:.*/)?([^/:]+:[0-9]+): Error: unrecognized opcode `(([\w.]+)[^']*)', extension")
# what assemblers say of `pause` where they don't know it, or only as a part of an extension; and what defines it
NO_PAUSE = re.compile(r"(?=.*(?:unrecognized (?:opcode|instruction)|'Zihintpause'))(?=.*\bpause\b)", re.DOTALL)
PAUSE = ["--include=pause_word.h"]
# what mapping.h asserts, and a place in another file
MAPPED = re.compile(r'static.assert.*"(a mapped [^"]*)"')
SOURCE_PLACE = re.compile(r"(?:.*/)?(?!mapping\.h)([^/: ]+:[0-9]+):[0-9]+: (?:error|note):")
# an atomic operation as the compilers print their own code
ATOMIC_IN_GCC = re.compile(r"\b__(?:atomic|sync)_\w+ \(")
ATOMIC_IN_CLANG = re.compile(r"^ +(?:%\S+ = )?(?:load atomic|store atomic|atomicrmw|cmpxchg|fence|(?:tail )?call [^@\n]*@__atomic_\w+\() ?", re.MULTILINE)
# the headers of the host's libstdc++, and of a C library for RISC-V without a system
CXX_ROOT, PICOLIBC = Path("/usr/include"), Path("/usr/lib/picolibc/riscv64-unknown-elf/include")
PICOLIBC_PACKAGE = "picolibc-riscv64-unknown-elf"


class Compiler:
    """A compiler by its name, `gcc` or `clang`, or by a command line."""

    def __init__(self, named):
        commands = USUAL.get(named, (named,))
        self.words = shlex.split(next((each for each in commands if shutil.which(each)), commands[0]))
        if not self.words:
            raise Refused("--compiler names no command")
        self.family = "clang" if "clang" in Path(self.words[0]).name else "gcc"

    def flags(self, language=C):
        """The flags that it always has for a language."""
        flags = [*FLAGS, *FLAGS_OF[self.family]]
        if language in (ASSEMBLY, PLAIN_ASSEMBLY):
            flags = [each for each in flags if each.startswith(SHARED)]
            if self.family == "gcc":
                flags[0] += "_zicsr_zifencei"  # what isn't a hart's may use control registers
        return [*flags, *CXX_FLAGS] if language == CXX else flags

    def version(self):
        lines = output([self.words[0], "--version"]).splitlines()
        return lines[0].strip() if lines else "of no version"

    def compile(self, source, module, flags=(), folders=(), language=C):
        """Compiles a file to a module, and returns the flags by which it did. What a compiler leaves otherwise, as where it
        crashes, it leaves beside the module."""
        command = [*self.words]
        if language == CXX:
            command[0] = re.sub(r"gcc(?=[-0-9.]*$)", "g++", re.sub(r"clang(?=[-0-9.]*$)", "clang++", command[0]))
        # a compiler that isn't there is named before headers that aren't
        headers = cxx_headers() if language == CXX and shutil.which(command[0]) else ()
        own = [word for folder in headers for word in ("-isystem", folder)]
        include = [word for folder in (HERE / "c", *folders) for word in ("-I", folder)]
        given, flags, rest = flags, [*self.flags(language), *flags], ["-c", "-o", module, "-x", KINDS[language], source]
        variables = {"TMPDIR": str(Path(module).parent)}
        try:
            output([*command, *flags, *own, *include, *rest], variables)
        except Refused as refused:
            further = [word for word in remedy(refused) if word not in flags]
            if not further:
                raise said_otherwise(refused, missing_header(refused), language) from None
            # the preprocessor takes what it includes
            language = ASSEMBLY if language == PLAIN_ASSEMBLY else language
            return self.compile(source, module, [*given, *further], folders, language)
        return flags

    def atomics(self, source, module, flags, folders, language):
        """How many atomic operations of a file are left to the compiler, after it has inlined calls."""
        if self.family == "clang":
            self.compile(source, module, [*flags, "-S", "-emit-llvm"], folders, language)
            return len(ATOMIC_IN_CLANG.findall(Path(module).read_text(errors="replace")))
        dump = Path(module).with_suffix(".optimized")
        self.compile(source, module, [*flags, f"-fdump-tree-optimized={dump}"], folders, language)
        return len(ATOMIC_IN_GCC.findall(dump.read_text(errors="replace"))) if dump.exists() else 0

    def macros(self, header, folders):
        """The names of the macros that a header leaves defined."""
        include = [word for folder in folders for word in ("-I", folder)]
        printed = output([*self.words, *self.flags(), *include, "-E", "-dM", "-x", "c", header])
        return set(re.findall(r"^#define (\w+)", printed, re.MULTILINE))

    def preprocessed(self, source, folders, flags=()):
        """A C file after its macros are expanded."""
        include = [word for folder in (HERE / "c", *folders) for word in ("-I", folder)]
        command = [*self.words, *self.flags(), *flags, *include]
        try:
            return output([*command, "-E", "-P", source])
        except Refused as refused:
            return output([*command, *remedy(refused), "-E", "-P", source])

    @staticmethod
    def assemble(source, module):
        """Assembles a file of RV32I."""
        output([binutil("as"), "-march=rv32i", "-mabi=ilp32", "-g", "-o", module, source])


def cxx_headers():
    """The folders of libstdc++'s headers, the newest that is there, after what takes the place of its configuration for a
    system."""
    found = sorted(CXX_ROOT.glob("c++/[0-9]*"), key=lambda path: int(re.sub(r"\D.*", "", path.name)))
    if not found:
        raise Refused("there are no headers of C++: apt-get install libstdc++-12-dev")
    return [HERE / "cxx", found[-1], *list(CXX_ROOT.glob(f"*/c++/{found[-1].name}"))[:1]]


def missing_header(refused):
    """The header that a compiler didn't find, or None."""
    shape = NO_HEADER.search("".join(refused.before[:1]))
    return shape and shape[1]


def remedy(refused):
    """The flags with which a compiler may take what it has refused: the headers of a C library, or the word of `pause`."""
    if missing_header(refused) and PICOLIBC.is_dir():
        return ["-idirafter", str(PICOLIBC)]
    return PAUSE if NO_PAUSE.match("\n".join(refused.before)) else []


def said_otherwise(refused, missing, language):
    """What a compiler complains of, with what helps."""
    if missing and language == CXX and PICOLIBC.is_dir():
        return Refused(f"{refused}: libstdc++ has this header for systems alone; docs/from-objects.md has stand-ins", refused.before)
    if missing and (language == CXX or missing in ("string.h", "stdlib.h", "assert.h", "stdio.h")):
        return Refused(f"{refused}: {missing} is a C library's: apt-get install {PICOLIBC_PACKAGE} brings headers, and of the functions "
                       "only memcpy, memmove and memset are here", refused.before)
    if missing:
        return Refused(f"{refused}: it looks for headers beside the C file, and there is no C library", refused.before)
    if mapped := unmapped(refused.whole):
        return Refused(mapped)
    if shape := next(filter(None, map(NO_EXTENSION.match, refused.before)), None):
        return Refused(f"{shape[1]}: `{shape[2]}`: {columns.reason_of(shape[3])}")
    return refused


def unmapped(lines):
    """What mapping.h doesn't take, with the place in the source, or None, by what a compiler complains of."""
    shape = MAPPED.search(lines[0]) if lines else None
    place = next((found[1] + ": " for found in map(SOURCE_PLACE.match, lines) if found), "")
    return shape and place + shape[1]


def binutil(name):
    """The command of binutils with that name."""
    return next((prefix + name for prefix in PREFIXES if shutil.which(prefix + name)), PREFIXES[0] + name)


def limited(file_bytes):
    """A command may write `file_bytes` bytes, and no more, and no image of its memory where it crashes."""
    resource.setrlimit(resource.RLIMIT_FSIZE, (file_bytes, file_bytes))
    resource.setrlimit(resource.RLIMIT_CORE, (0, 0))


def output(words, variables=(), seconds=SECONDS, file_bytes=FILE_BYTES):
    """What a command prints; what it complains of is the refusal. Its environment has these variables further."""
    words = [str(word) for word in words]
    try:
        # signals stay ignored as they are here, so that a file that is too large is an error and no signal
        done = subprocess.run(words, stdin=subprocess.DEVNULL, capture_output=True, text=True, errors="replace",
                              timeout=seconds, env={**os.environ, **dict(variables), "LC_ALL": "C"}, preexec_fn=lambda: limited(file_bytes),
                              restore_signals=False, check=False)
    except OSError as error:
        if not isinstance(error, (FileNotFoundError, PermissionError)):
            raise Refused(f"{words[0]}: {error.strerror}") from None
        package = package_of(words[0])
        raise Refused(f"there is no command {words[0]}" + (f": apt-get install {package}" if package else "")) from None
    except subprocess.TimeoutExpired:
        raise Refused(f"{words[0]} takes more than {seconds} seconds") from None
    if done.returncode:
        lines = done.stderr.strip().splitlines() or [ended_with(done.returncode)]
        begin = next((at for at, line in enumerate(lines) if "error" in line.lower()), 0)
        lines = [each.replace("\t", " ") for each in lines[begin:]]
        helps = TOO_OLD if words[0].startswith(PREFIXES) and (done.returncode < 0 or UNKNOWN.search("\n".join(lines))) else ""
        raise Refused(f"{Path(words[0]).name} fails{helps}", [*lines[:LINES], *["[..]"] * (len(lines) > LINES)], lines)
    return done.stdout


def package_of(command):
    """Debian's package that has a command, or None."""
    numbered = re.fullmatch(r"clang(?:\+\+)?(-[0-9]+)", command)
    return f"clang{numbered[1]}" if numbered else PACKAGES.get(command, PACKAGES[BINUTIL] if command.startswith(PREFIXES) else None)


def ended_with(status):
    """How a command ended that said nothing."""
    return f"it ended with {status}, and said nothing" if status > 0 else f"it was ended by {signal.Signals(-status).name}, and said nothing"
