"""From objects to a litmus text: the harts' functions, the data, and what a comment asks."""

import re
import tempfile
import textwrap
from dataclasses import replace
from pathlib import Path

from bring_parts import (MOST, Refused, arguments, columns, compilers, dwarf, fields, functions, images, inits, inputs, memory, objects,
                         queues, texts)
from bring_parts.instructions import TEXT
from bring_parts.memory import WIDTH, Memory

# what compilers call where RV32I has no instruction
SUPPORT = {"__mulsi3", "__udivsi3", "__umodsi3", "__divsi3", "__modsi3", "memcpy", "memmove", "memset"}
ASKED = "the condition asks for"
# how many of the functions that are there a refusal names
SHOWN = 6


def complete(modules, compiler, folder):
    """The modules, with those that have what these lack: the functions of queue.h, and of the arithmetic that RV32I lacks."""
    symbols = [each for module in modules for each in objects.symbols_of(module)]
    needed = objects.undefined_in(symbols) - {each.name for each in symbols if each.section != "UND"}
    if queues.names() & needed:
        modules = [*modules, Path(folder, "functions")]
        compilers.Compiler.assemble(queues.FUNCTIONS, modules[-1])
    if SUPPORT & needed:
        modules = [*modules, Path(folder, "support")]
        # or the compiler makes a call of memcpy of memcpy's own loop
        compilers.Compiler(compiler).compile(compilers.SUPPORT, modules[-1], ["-fno-builtin", "-ffunction-sections"])
    return modules


def harts_of(image, information, named):
    """The harts by the functions that are named, or by P0, P1 and on."""
    symbols = [image.function(name) for name in named]
    if None in symbols:
        raise Refused(f"there is no function {named[symbols.index(None)]}{functions_there(image)}")
    if not named:
        while symbol := image.function(f"P{len(symbols)}"):
            symbols.append(symbol)
        later = next((each.name for each in image.symbols if re.fullmatch(r"P[0-9]{1,3}", each.name) and each.is_defined()
                      and int(each.name[1:]) >= len(symbols)), None)
        if later:
            raise Refused(f"the functions must be P0, P1 and on, none left out: there is {later}")
    if not symbols:
        raise Refused(f"there is no function P0{functions_there(image)}: the harts' functions are P0, P1 and on, or those that --harts "
                      "names. In C++ they are extern \"C\", in Rust #[no_mangle] pub extern \"C\", in assembly .globl")
    return [arguments.Hart(number, symbol, information.function(symbol.name)) for number, symbol in enumerate(symbols)]


def functions_there(image):
    """What is said of the functions that the files define."""
    names = [each.plain.partition("(")[0] for each in image.symbols if each.is_defined() and each.at >= TEXT and each.kind != "TLS"]
    names = [name for name in dict.fromkeys(names) if not re.match(r"(std|core|alloc)::|[_<$.]", name)]
    return f", only {', '.join(names[:SHOWN])}" + ", .." * (len(names) > SHOWN) if names else ""


def storage_for(pointed, folder):
    """A module of objects of these names and sizes. A type's size is a multiple of its alignment."""
    source, module = Path(folder, "storage.s"), Path(folder, "storage")
    source.write_text("".join(f'.section .bss.{name},"aw",@nobits\n.balign {max(4, size & -size)}\n.globl {name}\n.type {name},@object\n.size {name},{size}\n'
                              f'{name}: .zero {size}\n' for name, size in pointed.items()))
    compilers.Compiler.assemble(source, module)
    return module


class Linked:
    """Modules linked to an image, with all that is read of it: the harts, what their registers open as, and the objects."""

    def __init__(self, modules, question, named, sources, folder):
        self.load(modules, named, sources, folder)
        opened = [arguments.opened(hart, question, self.information) for hart in self.harts]
        self.registers = [registers for registers, _ in opened]
        there, parts = {memory.short(symbol.plain) for _, _, symbol in self.image.data()}, fields.Parts(self.information)
        pointed = {name: (parts.size_of(kind) or 4, {"parts": parts.of_kind(kind, name), "begins": parts.begins(kind, name), "is_whole": parts.is_plain(kind)})
                   for _, kinds in opened for name, kind in kinds.items() if name not in there}
        if pointed:
            module = storage_for({name: size for name, (size, _) in pointed.items()}, folder)
            self.load([*modules, module], named, sources, folder)
        found, self.longer = memory.objects_of(self.image, fields.Parts(self.information))
        self.objects = [replace(each, **pointed[each.name][1]) if each.name in pointed else each for each in found]
        self.calls = [queues.calls_of(code) for code in self.functions]
        self.queues = queues.among(self.objects, self.calls)
        self.objects += queues.fixed(self.objects, self.queues)
        end = max((each.at + each.size for each in self.objects), default=0)
        self.image.values += [0] * ((end + 3) // 4 - len(self.image.values))

    def told(self):
        """What the comment says of the harts and of the queues."""
        yield from queues.lines(self.queues, self.calls)
        if not self.queues and any(call.name in queues.names() for each in self.calls for call in each):
            yield queues.NONE
        if any(each.at in self.image.panics for code in self.functions for part in code.values() for each in part):
            yield "ebreak, which stops the hart, stands for each call that panics"
        yield ", ".join(f"P{hart.number} is {hart.name}" for hart in self.harts if hart.symbol.name != f"P{hart.number}")

    def load(self, modules, named, sources, folder):
        self.image = images.Image(images.linked(modules, folder), folder, sources)
        self.information = dwarf.of_image(self.image.path)
        self.harts = harts_of(self.image, self.information, named)
        symbols = [hart.symbol for hart in self.harts]
        self.functions = [functions.of_hart(self.image, symbol, symbols) for symbol in symbols]


def litmus_text(modules, question, way, note, told, sources=()):
    """The litmus text of modules, and its words of memory. Of `way`, the harts' functions are named, or none for P0 and on, the compiler makes what the
    modules lack, and the init functions run. `note()` gives what writes the comments beside a hart's instructions, if there are to be any; `told` are the
    lines that say how the text was made, and `sources` the files whose lines the instructions have."""
    with tempfile.TemporaryDirectory() as folder:
        linked = Linked(complete(modules, way.compiler, folder), question, way.harts, sources, folder)
    words = Memory(linked.image.values, linked.objects, linked.longer, bool(linked.information.variables))
    words.open(question.words)
    devices = inputs.placed(way.inputs, words)
    inits.run(linked, way.inits, words, devices)
    check_asked(question, linked)
    made, openings = [], []
    for hart, registers, code in zip(linked.harts, linked.registers, linked.functions):
        code = devices.moved(code, linked.image.relocations, not hart.function or linked.information.returned(hart.function) is not None)
        arguments.check_set(hart, registers, [each for part in code.values() for each in part])
        made.append(columns.column(code, way.fences, note and note(), 2 in registers))
        openings.append(opening(hart, registers, made[-1], words))
    words.check_size(devices.room())
    devices.check_used()
    if devices.found:
        column, opens = devices.column(len(made))
        made.append(column)
        openings.append(opens)
        devices.name(words)
    kept = [f"{hart}:x{arguments.register_of(f'{hart}:{register}')} is {name}" for (hart, name), register in question.kept.items()]
    comment = comment_of([*told, *linked.told(), ", ".join(kept)])
    init = ["{", *words.items(), *filter(None, openings), "}"]
    text = "\n".join([f"RISCV {question.name}", comment, *init, *table(made), condition(question, words)]) + "\n"
    if len(text.encode()) > MOST:
        raise Refused(f"the litmus text has more than {MOST} bytes")
    texts.read(text, "the text that was made")
    return text, words


def check_asked(question, linked):
    """Refuses what the condition asks of harts and can't be known."""
    for left in question.ending.lefts():
        number, _, name = left.partition(":")
        if not number.isdigit() or (int(number), name) in question.kept:
            continue
        if int(number) >= len(linked.harts):
            raise Refused(f"{ASKED} {left}, and there is no P{number}")
        arguments.check_returned(linked.harts[int(number)], left, arguments.register_of(left), linked.information)


def opening(hart, registers, column, words):
    """What a hart's registers open as: its parameters, its stack, and where called functions return at the end."""
    items = [f"{hart.number}:x{register}={words.value(value, f'{hart.name} is to have in x{register}')};"
             for register, value in registers.items()]
    if column.stack:
        items.append(f"{hart.number}:x2={words.push_stack(hart.number, column.stack)};")
    if column.returns is not None:
        items.append(f"{hart.number}:x1={column.returns};")
    return " ".join(items)


def condition(question, words):
    """The condition with registers by number and objects by the names of their words."""
    def left_of(left):
        hart, _, name = left.partition(":")
        if hart.isdigit():
            kept = question.kept.get((int(hart), name), name)
            return f"{hart}:x{arguments.register_of(f'{hart}:{kept}')}"
        return words.named(left, ASKED)

    for each in question.ending.equations():
        if words.is_small(each.left) and each.value.startswith("-"):
            raise Refused(f"{ASKED} {each.left}={each.value}, and {each.left} has fewer than 32 bits: as a word it is never negative")
    return question.ending.renamed(left_of, lambda value: words.value(value, "the condition has the value")).text()


def comment_of(lines):
    """The comment below the header."""
    # what stands in the comment neither opens one nor closes it
    lines = [line.replace("(*", "( *").replace("*)", "* )") for line in lines]
    wrapper = textwrap.TextWrapper(WIDTH, break_long_words=False, break_on_hyphens=False)
    parts = [part for line in lines for part in wrapper.wrap(line)]
    return "(* " + "\n   ".join(parts) + " *)"


def table(made):
    """The rows of the columns."""
    height = max(len(column.cells) for column in made)
    rows = [[f"P{hart}", *column.cells, *[""] * (height - len(column.cells))] for hart, column in enumerate(made)]
    widths = [max(map(len, column)) for column in rows]
    return [" " + " | ".join(cell.ljust(width) for cell, width in zip(row, widths)) + " ;" for row in zip(*rows)]
