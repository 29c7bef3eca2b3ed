"""Objects linked to an image: its data from address 0 on, its code, and the relocations that are left in it."""

import re
from dataclasses import replace
from pathlib import Path

from bring_parts import Refused, instructions, line_tables, linkable, made_before, objects
from bring_parts.instructions import TEXT
from bring_parts.objects import tool

# the bytes of the machine's memory, and of the words that a text names at most
DATA, NAMED = 16 * 1024, 4 * 1024
# word 0 stays empty, so that no object has the address of a null pointer; CODE and DATA are further sections of the objects
SCRIPT = """
SECTIONS {
  .text 0x100000 : { *(.text .text.* CODE) }
  .data 0 : { LONG(0);
    *(SORT_BY_NAME(.data.*)) *(SORT_BY_NAME(.bss.*)) *(.data .sdata .sdata.* .bss .sbss .sbss.* COMMON)
    *(SORT_BY_NAME(.rodata.*)) *(.rodata .srodata .srodata.* .got .got.plt DATA) . = ALIGN(4); }
  .tdata 0x200000 : { *(.tdata .tdata.*) }
  .tbss : { *(.tbss .tbss.*) }
  /DISCARD/ : { *(.comment) *(.riscv.attributes) *(.eh_frame) *(.gcc_except_table*) *(.note*) *(.llvm_addrsig) }
}
"""
# the sections that the script names, or that are refused
USUAL = re.compile(r"\.(text|s?data|s?bss|s?rodata|got|tdata|tbss|eh_frame|gcc_except_table|note|(init|fini|preinit)_array|[cd]tors)"
                   r"(\..*)?")
MADE_BEFORE = re.compile(r"\.((init|fini|preinit)_array|[cd]tors)(\..*)?")
RELOCATION = re.compile(r"([0-9a-f]+) +[0-9a-f]+ (R_RISCV_\w+)(?: +([0-9a-f]+) +(.*?)(?: \+ [0-9a-f]+)?)?$")
WITHOUT_PLACE = ("R_RISCV_RELAX", "R_RISCV_ALIGN")
# what Rust's library is called for where the code gives up: `core` isn't linked, and a call of these never returns
PANICS = re.compile(r"(?:core|std|alloc)::.*(?:panic|unwrap_failed|expect_failed|_fail\b).*")
# what is said of names that nothing defines
REMEDIES = [(r"__atomic_\w*_[124]", "an atomic object of this size needs a library: exchange, or add to, a word"),
            (r"__atomic_.*", "the code is compiled for RV32: take at most 4 bytes, as uint32_t or size_t"),
            (r"__builtin_riscv_pause", 'this compiler lacks it: write `__asm__ volatile("pause")`'),
            (r".*__throw_.*|__cxa_(throw|begin_catch|allocate_exception).*|_Unwind.*", "what throws isn't taken"),
            (r"__cxa_guard_.*", "a static object that is made when it is first met: give it a constant value, or make it global"),
            (r"__cxa_pure_virtual", "a virtual function"), (r"__riscv_(save|restore)_.*", "compile with -mno-save-restore"),
            (r"(core|alloc|std)::.*|<.* as (core|alloc|std)::.*", "code of the library that isn't made part of yours: leave it out"),
            (r"__assert\w*|abort", "no assertion is taken: compile with -DNDEBUG"),
            (r"operator (new|delete).*|malloc|free|calloc|realloc", "there is no heap: make the object global"),
            (r"__(add|sub|mul|div|fix|float|lt|gt|eq|ne|le|ge|un|extend|trunc|neg)\w*[sdt]f\w*", "there is no floating point: to load, store and "
             "copy such numbers is taken, to compute with them isn't"),
            (r"__(u?div|u?mod|mul|ashl|ashr|lshr)di3", "arithmetic of 64 bits that is no instruction: take 32 bits")]


def is_data(flags):
    return "A" in flags and "X" not in flags


def linked(modules, folder):
    """The image of modules, if its data aren't too large. What isn't defined is 0 in it."""
    sections = [section for module in modules for section in objects.sections_of(module)]
    data_fit(sum(size for _, size, flags, _ in sections if is_data(flags) and "W" in flags))
    script, image = Path(folder, "script"), Path(folder, "image")
    script.write_text(script_for(sections))
    tool("ld", "-m", "elf32lriscv", "--no-relax", "--emit-relocs", "--unresolved-symbols=ignore-all", "--no-warn-mismatch",
         "-e", "0", "-T", script, "-o", image, *(linkable.made_of(module, Path(folder, f"words{at}")) for at, module in enumerate(modules)))
    sections = objects.sections_of(image)
    data_fit(sum(size for name, size, _, _ in sections if name == ".data"))
    if made := [name for name, size, _, _ in sections if size and MADE_BEFORE.fullmatch(name)]:
        before, after = ([word for name in made if ("fini" in name or "dtors" in name) is is_after for word in words_of(image, folder, name)]
                         for is_after in (False, True))
        raise Refused(made_before.said(made[0], Image(image, folder), before, after))
    return image


def data_fit(size):
    if size > DATA:
        raise Refused(f"{size} bytes of data: the machine has {DATA}")


def script_for(sections):
    """The script, with the names of further sections by whether they have code."""
    further = {(name, "X" in flags) for name, _, flags, _ in sections if "A" in flags and not USUAL.fullmatch(name)}
    code, data = (" ".join(sorted(name for name, is_code in further if is_code is wanted)) for wanted in (True, False))
    script = SCRIPT.replace("CODE", code).replace("DATA", data)
    if sum(size for _, size, flags, _ in sections if is_data(flags)) + 4 <= NAMED:
        return script
    # what has no name opens as 0, so that constants stand before that, and large objects at the end
    zeros = dict.fromkeys(name for _, name in sorted((size, name) for name, size, _, _ in sections if name.startswith(".bss.")))
    own = " ".join(f"*({name})" for name in zeros)
    head, _, rest = script.partition("*(SORT_BY_NAME(.bss.*)) *(.data .sdata .sdata.* .bss .sbss .sbss.* COMMON)")
    return head + rest.replace(". = ALIGN(4);", f"*(.data .sdata .sdata.*) {own} *(.bss .bss.* .sbss .sbss.* COMMON) . = ALIGN(4);", 1)


class Image:
    """A linked image: its symbols, the values of its words, and its code with the relocations. The lines of the code are
    those of these sources, where it comes from there."""

    def __init__(self, path, folder, sources=()):
        self.path, self.symbols = path, objects.symbols_of(path)
        self.values = words_of(path, folder)
        self.relocations = relocations_of(path)
        listing = tool("objdump", "-d", "-z", "-l", "--inlines", "-M", "no-aliases,numeric", "--no-show-raw-insn", path)
        lines = line_tables.Lines(tool("objdump", "--dwarf=rawline", path))
        self.undefined = objects.undefined_in(self.symbols)
        code = instructions.absolute(instructions.listed(listing, sources, lines.at), self.relocations)
        # where a call panics stands what stops a hart; what the compiler takes for unreachable after it is left out
        self.panics = {each.at for each in code if each.name == "jal" and self.is_panic(self.relocations.get(each.at, ("", 0, ""))[2])}
        self.code = [replace(each, name="ebreak", operands="") if each.at in self.panics else each for before, each in zip([None, *code], code)
                     if not (before and before.at in self.panics and each.name in ("unimp", "c.unimp"))]

    def data(self):
        """The objects of the data: address, bytes and symbol. One without a size ends where the next begins."""
        limit = 4 * len(self.values)
        found = sorted((each for each in self.symbols if each.is_defined() and 4 <= each.at < limit and each.kind != "FUNC"
                        and each.kind != "TLS" and not each.name.startswith((".L", "$"))), key=lambda each: (each.at, -each.size))
        for each in found:
            end = min((other.at for other in found if other.at > each.at), default=limit)
            yield each.at, each.size or end - each.at, each

    def function(self, name):
        """The symbol of the function of this name, as the linker has it or as its author does."""
        return next((each for each in self.symbols if each.is_defined() and each.at >= TEXT and each.kind != "TLS"
                     and name in (each.name, each.plain, each.plain.partition("(")[0])), None)

    def plain(self, name):
        """A symbol's name as its author has it."""
        return next(symbol.plain for symbol in self.symbols if symbol.name == name)

    def is_panic(self, name):
        """Whether this is what Rust's library is called for where the code gives up, and isn't linked."""
        return name in self.undefined and PANICS.fullmatch(self.plain(name)) is not None

    def check_defined(self, code):
        """Refuses code that uses what nothing defines."""
        for each in code:
            _, _, name = self.relocations.get(each.at, ("", 0, ""))
            if name in self.undefined and each.at not in self.panics:
                plain = self.plain(name)
                why = next((f": {remedy}" for form, remedy in REMEDIES if re.fullmatch(form, plain)), "")
                raise Refused(f"{each.where()}: `{plain}` isn't defined{why}")


def words_of(image, folder, section=".data"):
    """The values of the words of a section, of the data from address 0 on."""
    file = Path(folder, "data")
    tool("objcopy", "-O", "binary", "-j", section, image, file)
    data = file.read_bytes()
    return [int.from_bytes(data[at:at + 4], "little") for at in range(0, len(data), 4)]


def relocations_of(image):
    """For each address of the code its relocation: kind, and the value and name of its symbol."""
    found, is_code = {}, False
    for line in tool("readelf", "-rW", image).splitlines():
        if line.startswith("Relocation section"):
            is_code = "'.rela.text'" in line
        shape = RELOCATION.match(line) if is_code else None
        if shape and shape[2] not in WITHOUT_PLACE:
            found[int(shape[1], 16)] = shape[2], int(shape[3] or "0", 16), shape[4] or ""
    return found
