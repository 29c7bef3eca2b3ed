"""The parts of ./check: what each tries, what its short form leaves out, and what it costs."""

from statistics import median
from typing import NamedTuple

from .links import ROOT

COSTS = ROOT / "cases/kit/costs.tsv"
KINDS = ("short", "all")
# what builds the program, before the parts
BUILD = "build"
# the processor seconds of a short run at most, with room for a fifth more
MOST, ROOM = 300, 1.2
# a part is slower only if it takes this many seconds more, and at least this many parts were tried: their middle ratio is that of two machines
SECONDS, MACHINES = 3, 6


class Part(NamedTuple):
    """What is tried: a command, in which PROGRAM stands for the program and OTHER for the second one."""

    name: str
    words: tuple
    # words that follow with --all and without; None where it isn't tried without --all unless it is named
    whole: tuple = ()
    short: tuple | None = ()
    # what the short form leaves out
    without: str = ""
    # commands that it can't run without
    needs: tuple = ()
    # whether it fills the processors by itself, or answers in time only on idle ones
    alone: bool = False

    def command(self, is_whole):
        return *self.words, *(self.whole if is_whole or self.short is None else self.short)

    def is_of_sources(self):
        """Whether it needs no program, and may be tried while that is built."""
        return not self.words[0].startswith("stock/") and "PROGRAM" not in self.words


# those that take long come first, so that none is left over at the end. A short form keeps what found faults (docs/testing.md)
PARTS = (
    Part("cases", ("cases/run", "--program", "PROGRAM"), short=("--short",), alone=True,
         without="seven of eight refused allocations, and the longest search"),
    Part("queues", ("tests/queues", "--program", "PROGRAM"), short=("--short",), alone=True,
         without="five of six queues, rows and changed checks, and wrong certificates made of large ones"),
    Part("queue-examples", ("tests/queue-examples", "--program", "PROGRAM"), short=("--short",), without="every second queue"),
    Part("queue-answers", ("tests/queue-answers", "--program", "PROGRAM"), whole=("--compiler", "-", "--compiler", "gcc"), short=None),
    Part("changed-certificates", ("tests/changed-certificates", "--program", "PROGRAM"), whole=("--count", "1000"), short=("--count", "100", "--part", "12"),
         without="nine of ten draws, and eleven of twelve steps"),
    Part("explore-queues", ("tests/explore-queues", "--program", "PROGRAM", "--seconds", "5", "--states", "300"), short=None),
    Part("tests", ("stock/test",), needs=("cargo",)),
    Part("bringing", ("tests/bringing", "--program", "PROGRAM"), short=("texts", "listings", "objects", "sources", "compared", "logs", "pictures",
                                                                                "queues", "reports", "tables", "shelf"),
         without="hostile inputs of the tools"),
    Part("installing", ("tests/installing", "--program", "PROGRAM"), short=("prefix", "building", "terminal", "completing"),
         without="the packages, the wrapper at a terminal where it is installed, and the pages' commands there"),
    Part("self-test", ("cases/kit/self-test",)),
    Part("lints", ("stock/lints",), needs=("cargo-clippy",), short=None),
    Part("hostile", ("tests/hostile", "--program", "PROGRAM"), whole=("cut", "limits", "odd"), short=("--short", "cut", "odd"),
         without="inputs at the limits"),
    Part("page-server", ("tests/page-server", "--program", "PROGRAM"), short=("starting", "refusals", "limits"),
         without="the shelf's runs on the page, and the page without a server"),
    Part("two-programs", ("tests/two-programs", "PROGRAM", "OTHER")),
    Part("kept-logs", ("examples/core/kept-logs", "--program", "PROGRAM")),
    Part("rings-own", ("tests/rings", "own", "--program", "PROGRAM"), short=None),
    Part("callers", ("tests/callers", "--program", "PROGRAM")),
    Part("pages", ("scripts/check-pages", "--program", "PROGRAM")),
    Part("wrong-protocols", ("tests/wrong-protocols",)),
    Part("shelf-find", ("tests/shelf", "find", "PROGRAM")),
    Part("hostile-calls", ("tests/hostile", "--program", "PROGRAM", "calls"), needs=("rt",), short=None),
)


def rows():
    """Processor seconds by part and kind, of one machine."""
    lines = [line.split("\t") for line in COSTS.read_text().splitlines()[1:]] if COSTS.exists() else []
    return {name: {kind: int(value) for kind, value in zip(KINDS, values) if value} for name, *values in lines}


def write(kind, used):
    """Puts what parts used into the table."""
    table = rows()
    for name, seconds in used.items():
        table.setdefault(name, {})[kind] = seconds
    there = [name for name in (BUILD, *(part.name for part in PARTS)) if name in table]
    lines = [[name, *(f"{max(1, round(table[name][kind]))}" if kind in table[name] else "" for kind in KINDS)] for name in there]
    COSTS.write_text("".join("\t".join(line) + "\n" for line in [["part", *KINDS], *lines]))


def slower(kind, used):
    """A line for each part that takes a fifth more than its row, the machines' speeds taken out; none where too few parts tell these."""
    known = {name: row[kind] for name, row in rows().items() if row.get(kind) and name in used}
    ratios = [used[name] / seconds for name, seconds in known.items()]
    for name, seconds in known.items() if len(ratios) >= MACHINES else ():
        wanted = seconds * median(ratios)
        if used[name] > ROOM * wanted and used[name] > wanted + SECONDS:
            yield f"slower: {name} took {used[name]:.0f} s of a processor, and {wanted:.0f} were expected ({COSTS.relative_to(ROOT)})"


def wrong():
    """A line for each part of a short run that has no row, or row without a part, and one if a short run takes too long."""
    table, parts = rows(), {part.name: part for part in PARTS}
    place = COSTS.relative_to(ROOT)
    # what needs a second program isn't in a first run
    needed = {BUILD, *(part.name for part in PARTS if part.short is not None and "OTHER" not in part.words)}
    for name in sorted(needed - {name for name, row in table.items() if "short" in row}):
        yield f"{place}: no row has what {name} takes: ./check --write, in an empty clone, writes it"
    for name in sorted(table.keys() - parts.keys() - {BUILD}):
        yield f"{place}: {name}: ./check has no such part"
    seconds = sum(row.get("short", 0) for row in table.values())
    if seconds > MOST:
        yield (f"{place}: a short ./check takes {seconds:.0f} processor seconds, of {MOST} at most: make a part cheaper, or its short form "
               "(cases/kit/checking.py)")
    yield from (f"cases/kit/checking.py: {part.name}: it says what its short form leaves out if it has one, and else nothing" for part in PARTS
                if bool(part.without) != (part.short is not None and part.short != part.whole))
