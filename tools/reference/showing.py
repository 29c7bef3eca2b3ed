"""What a litmus test is, as text: a line for each thing, or its opening as a steps text (docs/formats.md)."""

import charts
import programs
import words


def shown(text):
    """A text as charts write it."""
    return "".join(map(charts.shown, text.encode()))


def harts(test):
    """Each hart's number, its cells, its words of code, and its registers that open as other than 0."""
    for hart, cells in enumerate(test.columns):
        code = programs.read("\n".join(text for _, text, _, _ in cells))
        registers = [(number, test.registers.get((hart, number), 0)) for number in range(1, 32)]
        yield hart, cells, code, [(number, value) for number, value in registers if value]


def table(test):
    """The test's lines, one thing each."""
    yield f"test {shown(test.name)}"
    for hart, cells, code, registers in harts(test):
        yield f"hart {hart}"
        place = 0
        for line, _, label, count in cells:
            if label is not None:
                yield f"label {hart} {4 * place} {line} {label}"
            for word in code[place:place + count]:
                yield f"code {hart} {4 * place} {line} {word:08x} {words.text(*words.decoded(word))}"
                place += 1
        yield from (f"reg {hart} {number} {value}" for number, value in registers)
    for name, address in test.locations.items():
        yield f"location {address} {test.words.get(address, 0)} {name}"
    yield from (f"left {left}" for left, _ in test.lefts)
    yield f"condition {shown(test.asked)}"


def steps(test):
    """The lines of a steps text that opens as the test does."""
    for hart, _, code, registers in harts(test):
        yield "hart" + "".join(f" {word:08x}" for word in code)
        yield from (f"reg {hart} {number} {value}" for number, value in registers)
    yield from (f"word {address} {value}" for address, value in sorted(test.words.items()) if value)
