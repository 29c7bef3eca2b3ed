"""What becomes of C files by one way of compiling or another: fences, AMOs, and every outcome of a search."""

import re
import tempfile
from collections import Counter
from dataclasses import dataclass, replace
from pathlib import Path

from bring_parts import Refused, compilers, languages, logs, making, search
from bring_parts.languages import C, RUST

import litmus

FENCE = re.compile(r"\bfence(?:\.tso| [iorw0]+,[iorw0]+)")
# each way's name, and the options that it has beside the compiler
WAYS = [("as compiled", {}), ("full fences alone", {"fences": "full"}), ("no fences", {"fences": "none"}),
        ("rvwmo.h", {"mapping": "rvwmo.h"}), ("ztso.h", {"mapping": "ztso.h"})]
KEPT, FULL, NONE, RVWMO, ZTSO = (name for name, _ in WAYS)


@dataclass
class Compiled:
    """What one way makes of a file: the text with C's lines, what it counts, and its outcomes."""
    text: str
    instructions: int
    fences: Counter
    full: int
    amos: int
    found: search.Found

    def row(self, added):
        """The cells of its row, with a `+` at outcomes that are added."""
        shown = " ".join("+" * (values in added) + joined(values) for values in sorted(self.found.schedules))
        states = f"{self.found.states}" + ", then it stopped" * self.found.cut
        return [self.instructions, sum(self.fences.values()), self.full, self.amos, shown, states, self.condition()]

    def condition(self):
        """What the outcomes say of the condition."""
        test = litmus.read(self.text)
        places = [place for _, place in test.lefts]
        verdicts = {test.holds(dict(zip(places, values)).get) for values in self.found.schedules}
        if test.kind == "exists":
            return "shown" if True in verdicts else "not shown"
        return "fails" if False in verdicts else "holds"


def joined(values):
    return "-".join(str(logs.signed(value)) for value in values)


def is_c(path):
    """Whether a file is C."""
    return languages.language_of(path) in (C, None)


def is_mapped(path):
    """Whether a file is of a language that has the operations that a mapping is of."""
    return is_c(path) or languages.language_of(path) in languages.MAPPED


def compiled(path, way, states):
    """What becomes of a file by one way of compiling it."""
    text = making.of_c(path, way) if is_c(path) else making.made([path], way)
    test = litmus.read(text)
    codes = [each for code in test.codes for each in code]
    return Compiled(text, len(codes), Counter(FENCE.findall(litmus.without_comments(text))), codes.count(("fence", True)),
                    sum(each[0].startswith("amo") for each in codes), search.outcomes(text, 4, states))


class Comparison:
    """A file by one compiler, by each way and by each mapping of one's own; `way` has what is the same in each."""

    def __init__(self, path, way, own, states, tries=lambda name: None):
        self.path, self.own, self.ways, self.refused = Path(path), own, {}, {}
        self.compiler = "rustc" if languages.language_of(path) == RUST else way.compiler
        every = dict(WAYS) | {name: {"mapping": name} for name in own}
        self.names = {name: replace(way, lines=True, **options) for name, options in every.items()
                      if is_mapped(path) or "mapping" not in options}
        for name, each in self.names.items():
            tries(name)
            try:
                self.ways[name] = compiled(path, each, states)
            except Refused as refused:
                self.refused[name] = ": ".join([str(refused), *refused.before[:1]])
        # how many atomic operations the compiler's own code has, and how many are left of these beside a mapping
        mapped = next((name for name in (*own, ZTSO) if name in self.ways), None)
        self.atomics, self.left = (self.atomics_of(KEPT), self.atomics_of(mapped)) if mapped and KEPT in self.ways else (0, 0)

    def atomics_of(self, name):
        return making.atomics_left(self.path, languages.language_of(self.path) or C, self.names[name])

    def untried(self, is_named):
        """What of this isn't tried, in words: rows that are refused or cut, and mappings that take nothing. `is_named` says whether the
        file was named."""
        place = f"{self.path.name} by {self.compiler}"
        if not self.ways:
            return [place]
        rows = [f"{place}, {name}" for name in self.refused] + [f"{place}, {name}: its search stopped" for name, way in self.ways.items() if way.found.cut]
        if self.own and not is_mapped(self.path):
            return [*rows, *(f"{place}, {name}: a mapping takes C and C++" for name in self.own)]
        if self.own and is_named and set(self.own) & set(self.ways) and self.atomics == self.left:
            rows.append(f"{place}: none of its {self.atomics} atomic operations goes through a mapping")
        return rows

    def is_whole(self):
        """Whether each way was taken, and searched to the end."""
        return not self.refused and not any(way.found.cut for way in self.ways.values())

    def is_same(self):
        """Whether each mapping makes the same code, so that nothing is compared. A text's comment names the mapping."""
        texts = [way.text.partition("*)")[2] for name, way in self.ways.items() if self.names[name].mapping]
        return len(texts) > 1 and len(set(texts)) == 1

    def added(self, name, than=KEPT):
        """The outcomes of a way that another one hasn't."""
        if name not in self.ways or than not in self.ways:
            return []
        return sorted(set(self.ways[name].found.schedules) - set(self.ways[than].found.schedules))

    def lefts(self):
        """The condition's observed locations, by the names that C has for them."""
        text = next(iter(self.ways.values())).text
        names = logs.names_in(text)
        return [names.get(left, left) for left, _ in litmus.read(text).lefts]

    def rows(self):
        for name in self.names:
            if name in self.ways:
                yield [f"{self.compiler}, {name}", *self.ways[name].row(self.added(name))]
            else:
                yield [f"{self.compiler}, {name}", "refused", "", "", "", "", "", ""]

    def told(self):
        """What is refused, and what the ways say of the compiler's fences."""
        for reason in dict.fromkeys(self.refused.values()):
            names = [name for name, why in self.refused.items() if why == reason]
            yield f"{self.compiler}{f', {names[0]}' if len(names) == 1 else ''}: refused: {reason}"
        if KEPT not in self.ways or FULL not in self.ways or NONE not in self.ways:
            return
        kept, full = self.ways[KEPT], self.ways[FULL]
        needless = kept.fences - full.fences
        if needless:
            are, them = ("isn't", "it") if sum(needless.values()) == 1 else ("aren't", "them")
            yield f"{self.compiler}: {listed(needless)} {are} full: without {them} {told_added(self.added(FULL))}"
        if full.fences:
            are = "is" if sum(full.fences.values()) == 1 else "are"
            yield f"{self.compiler}: {listed(full.fences)} {are} full: without any fence {told_added(self.added(NONE))}"
        if not kept.fences:
            yield f"{self.compiler}: there is no fence"
        if RVWMO in self.ways and ZTSO in self.ways:
            yield f"{self.compiler}: ztso.h in place of rvwmo.h: {told_added(self.added(ZTSO, RVWMO))}"
        if self.own and self.is_same():
            yield (f"{self.compiler}: each mapping makes the same code. A mapping takes functions such as those of "
                   "<stdatomic.h>, not operators such as `x = 1` of C's atomic objects")


def listed(fences):
    return ", ".join(f"{count} `{name}`" for name, count in sorted(fences.items()))


def told_added(added):
    return "there is also " + " ".join(map(joined, added)) if added else "no outcome is added"


# sequentially consistent stores and loads: the instructions of each, and who has them
STORES = [("sw x5,0(x6)", "a fence before the load alone"), ("sw x5,0(x6); fence rw,rw", "ztso.h; x86's order"),
          ("fence rw,w; sw x5,0(x6)", "clang 14"), ("fence rw,w; sw x5,0(x6); fence rw,rw", "rvwmo.h"),
          ("fence iorw,ow; amoswap.w.aq x0,x5,(x6)", "gcc 12")]
LOADS = [("lw x7,0(x8)", "a fence after the store alone; x86's order"), ("fence rw,rw; lw x7,0(x8)", "ztso.h"),
         ("lw x7,0(x8); fence r,rw", "an acquire"), ("fence rw,rw; lw x7,0(x8); fence r,rw", "rvwmo.h; clang 14"),
         ("fence iorw,iorw; lw x7,0(x8); fence iorw,iorw", "gcc 12")]
OPENING = ["RISCV pair", "{", "0:x5=1; 0:x6=x; 0:x8=y;", "1:x5=1; 1:x6=y; 1:x8=x;", "}", " P0 | P1 ;"]


def pair(store, load):
    """Store buffering by a store's and a load's instructions, on both harts."""
    rows = [f" {each.strip()} | {each.strip()} ;" for each in f"{store}; {load}".split(";")]
    return "\n".join([*OPENING, *rows, "exists (0:x7=0 /\\ 1:x7=0)"]) + "\n"


def pairs(stores=tuple(STORES), loads=tuple(LOADS)):
    """For each store and load: whether a run of the search has both loads miss the stores, and its schedule."""
    for store, _ in stores:
        yield [search.outcomes(pair(store, load)).schedules.get((0, 0)) for load, _ in loads]


def halves(name, compiler):
    """The instructions of a mapping's sequentially consistent store and load, by the preprocessor of a compiler."""
    mapping = making.mapping_of(name)
    with tempfile.TemporaryDirectory() as folder:
        source = Path(folder, "halves.c")
        source.write_text(f'#include "{mapping}"\nHALF STORE_SEQ_CST("sw x5,0(x6)")\nHALF LOAD_SEQ_CST("lw x7,0(x8)")\n')
        printed = compilers.Compiler(compiler).preprocessed(source, [mapping.parent, making.MAPPINGS])
    return tuple(statements_of(each, name) for each in printed.split("HALF")[1:])


def statements_of(literals, name):
    """The statements of C's string literals, one beside the other."""
    words = re.findall(r'"((?:[^"\\]|\\.)*)"', literals)
    if not words or re.sub(r'"(?:[^"\\]|\\.)*"', "", literals).strip():
        raise Refused(f"{name}: its sequentially consistent store or load is no text of assembly: {literals.strip()[:60]}")
    text = "".join(words).replace("\\n", ";").replace("\\t", " ")
    return "; ".join(each.strip() for each in text.split(";") if each.strip())
