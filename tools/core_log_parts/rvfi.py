"""A trace of the RISC-V Formal Interface as a VCD, the form in which riscv-formal's runs leave theirs: a run of a core,
without landings, without the cycle in which a load read its value, and without the causes of exceptions."""

import re

from .log import LogError, Retired, Run

NAMES = ("valid", "order", "insn", "trap", "rd_addr", "rd_wdata", "pc_rdata", "mem_addr", "mem_rmask", "mem_wmask",
         "mem_rdata", "mem_wdata")
NEEDED = ("valid", "insn", "pc_rdata", "mem_addr", "mem_rmask", "mem_wmask", "mem_rdata", "mem_wdata")
# the width of each field of a channel; where there are several channels they stand side by side in a signal
WIDTHS = {"valid": 1, "order": 64, "insn": 32, "trap": 1, "rd_addr": 5, "rd_wdata": 32, "pc_rdata": 32, "mem_addr": 32,
          "mem_rmask": 4, "mem_wmask": 4, "mem_rdata": 32, "mem_wdata": 32}
CLOCKS = ("clock", "clk", "smt_clock")
VARIABLE = re.compile(r"\$var\s+\w+\s+([0-9]{1,5})\s+(\S+)\s+(\S+?)\s*(?:\[[0-9:]*\])?\s*\$end")
# what is read of a line of the head, and how many channels there may be
LONGEST, CHANNELS = 1000, 8
SCOPE = re.compile(r"\$scope\s+\w+\s+(\S+)\s+\$end")


class Trace:
    """The signals of a VCD's head: for each scope with RVFI the codes of its fields, and the clocks' codes."""

    def __init__(self, lines):
        self.lines, self.number = iter(lines), 0
        self.scopes, self.clocks = {}, {}
        self.read_head()

    def line(self):
        self.number += 1
        return next(self.lines, None)

    def read_head(self):
        above = []
        while (line := self.line()) is not None and "$enddefinitions" not in line:
            if scope := SCOPE.search(line[:LONGEST]):
                above.append(scope[1])
            elif "$upscope" in line and above:
                above.pop()
            elif variable := VARIABLE.search(line[:LONGEST]):
                width, code, name = int(variable[1]), variable[2], variable[3]
                if name.startswith("rvfi_") and name[5:] in NAMES:
                    self.scopes.setdefault(".".join(above), {})[name[5:]] = width, code
                elif name in CLOCKS:
                    self.clocks.setdefault(name, code)
        if line is None:
            raise LogError("it is no VCD: there is no $enddefinitions")

    def chosen(self, named, harts):
        """The fields of each hart's scope: those that are named, or all that are there, in their names' order. A scope
        whose signals are those of another one counts once."""
        whole = {}
        for scope, fields in sorted(self.scopes.items()):
            if set(NEEDED) <= set(fields) and fields["valid"] not in [each["valid"] for each in whole.values()]:
                whole[scope] = fields
        names = named or list(whole)
        if missing := [name for name in names if name not in self.scopes or not set(NEEDED) <= set(self.scopes[name])]:
            raise LogError(f"no scope {missing[0]} has the signals rvfi_..; these have: {' '.join(whole) or 'none'}")
        if len(names) != harts:
            raise LogError(f"the test has {harts} harts, and {len(names)} scopes have RVFI: name each hart's by --scope: "
                           f"{' '.join(names) or 'none'}")
        if any(self.scopes[name]["valid"][0] > CHANNELS for name in names):
            raise LogError(f"a signal rvfi_valid has more than {CHANNELS} bits")
        return [self.scopes[name] for name in names]

    def samples(self, codes):
        """What these signals are before each rising edge of the clock, with the line and how many edges came before."""
        clock = next((self.clocks[name] for name in CLOCKS if name in self.clocks), None)
        if clock is None:
            raise LogError(f"no signal has the name {', '.join(CLOCKS)}")
        values, changed, edges, was = {}, {}, 0, None
        while (line := self.line()) is not None:
            line = line.strip()
            if line.startswith("#") or not line or line.startswith("$"):
                if line.startswith("#"):
                    values.update(changed)
                    changed = {}
                continue
            value, code = (line[0], line[1:]) if line[0] in "01xXzZ" else line[1:].partition(" ")[::2]
            code = code.strip()
            if code == clock:
                if value == "1" and was != "1":
                    yield self.number, edges, values
                    edges += 1
                was = value
            elif code in codes:
                changed[code] = value


def number(values, field, channel, name):
    """A field's value of a channel. Bits that aren't known are none."""
    width, code = field
    text = values.get(code, "0")
    bits = (text[0] if text[0] in "xXzZ0" else "0") * max(0, width - len(text)) + text
    size = WIDTHS[name] if width >= WIDTHS[name] else width
    part = bits[len(bits) - size * (channel + 1):len(bits) - size * channel]
    return int(part, 2) if part and set(part) <= {"0", "1"} else None


def runs(lines, opening, places, scopes=()):
    """The one run of a trace."""
    trace = Trace(lines)
    harts = trace.chosen(scopes, len(opening.codes))
    codes = {code for fields in harts for _, code in fields.values()}
    run, ended = Run(0, 1, has_drains=False), set()
    for line, cycle, values in trace.samples(codes):
        for hart, fields in enumerate(harts):
            for step in retired(values, fields, hart, cycle, line):
                take(run, step, opening, places, ended)
        run.cycles = cycle + 1
    return [run] if run.steps else []


def retired(values, fields, hart, cycle, line):
    """The instructions that a hart retires in a cycle, by their order, each with the value of every field."""
    found = []
    for channel in range(fields["valid"][0]):
        if number(values, fields["valid"], channel, "valid") == 1:
            each = {name: number(values, fields[name], channel, name) for name in fields}
            if unknown := [name for name in NEEDED if each[name] is None]:
                raise LogError(f"line {line}: rvfi_{unknown[0]} of hart {hart} has bits that aren't known, in cycle {cycle}")
            found.append((each.get("order") or 0, each | {"hart": hart, "cycle": cycle, "line": line}))
    return [each for _, each in sorted(found, key=lambda pair: pair[0])]


def take(run, step, opening, places, ended):
    """Takes a retired instruction, if it is of the test's code. What traps ends its hart; its cause isn't known, so that
    the hart's stop is in no record."""
    hart, line = step["hart"], step["line"]
    pc = places.pc(hart, step["pc_rdata"], opening)
    if pc is None or hart in ended:
        return
    if step.get("trap"):
        ended.add(hart)
        run.notes.append(f"line {line}: hart {hart} traps at pc {pc:x}, for a cause that RVFI doesn't have: its stop is "
                         "left out")
        return
    masks = step["mem_rmask"], step["mem_wmask"]
    address = places.address(step["mem_addr"], line) if any(masks) else 0
    # where addresses aren't those of words, masks and data begin at the address
    offset = address % 4
    lanes = [mask << offset for mask in masks]
    if any(mask > 0xF for mask in lanes):
        raise LogError(f"line {line}: an access of hart {hart} at {address:x} goes past its word")
    data = [step[name] << 8 * offset & 0xFFFF_FFFF for name in ("mem_rdata", "mem_wdata")]
    run.steps.append(Retired(step["cycle"], hart, pc, step["insn"], step.get("rd_addr") or 0, step.get("rd_wdata") or 0,
                             address - offset, *lanes, *data, step["cycle"], line))
