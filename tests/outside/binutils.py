"""The words of assembly texts, by the assembler, the linker and objcopy of binutils."""

import re
import subprocess
import tempfile
from pathlib import Path

PREFIX = "riscv64-unknown-elf-"
# rows don't lie at 0, so that a jump backwards stays in what the linker takes for addresses
TEXT_AT = 0x400000


def tool(name, *arguments):
    """What a tool of binutils prints."""
    return subprocess.run([PREFIX + name, *arguments], check=True, stdout=subprocess.PIPE,
                          text=True).stdout


def version():
    return tool("as", "--version").splitlines()[0]


def words_of(texts, extensions):
    """The word of each text. Each text has to make four bytes, which objdump names as the text does."""
    bits, abi = ("64", "lp64") if extensions.startswith("rv64") else ("32", "ilp32")
    with tempfile.TemporaryDirectory() as folder:
        source, module, linked, image = (str(Path(folder) / f"rows.{kind}")
                                         for kind in ("s", "o", "elf", "bin"))
        Path(source).write_text("".join(f"row{i}: {text}\n" for i, text in enumerate(texts)))
        tool("as", f"-march={extensions}", f"-mabi={abi}", "-mno-relax", source, "-o", module)
        tool("ld", "-m", f"elf{bits}lriscv", f"-Ttext={TEXT_AT:#x}", "-e", "0", module, "-o", linked)
        tool("objcopy", "-O", "binary", "-j", ".text", linked, image)
        places = [int(line.split()[0], 16) for line in sorted(tool("nm", linked).splitlines())
                  if re.search(r" row\d+$", line)]
        if places != [TEXT_AT + 4 * i for i in range(len(texts))]:
            raise ValueError(f"a text of {extensions} isn't four bytes")
        names = re.findall(r"<row(\d+)>:\n +[0-9a-f]+:\t[0-9a-f ]+\t(\S+)",
                          tool("objdump", "-d", "-M", "no-aliases,numeric", linked))
        words = Path(image).read_bytes()
    for row, name in names:
        text = texts[int(row)]
        if not text.startswith(".") and text.split()[0] != name:
            raise ValueError(f"{text}: objdump says {name}")
    return [int.from_bytes(words[i:i + 4], "little") for i in range(0, 4 * len(texts), 4)]
