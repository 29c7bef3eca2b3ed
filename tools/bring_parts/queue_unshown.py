"""The answer for a person where nothing is claimed: which instruction isn't shown to be allowed, what is lacking there, and what drawn runs did."""

from bring_parts import queue_hints, queue_runs
from bring_parts.queue_hints import Held
from bring_parts.queue_places import as_parties
from bring_parts.queue_said import Drawn, Likely
from bring_parts.queue_short import DRAWN, LONGER, SEARCH, Line, Short
from bring_parts.queue_types import counted

VERDICT = "not shown: nothing is claimed, right or wrong"
# this many harts are named, and hints of code that doesn't use a queue
HARTS, UNUSED = 2, 2
NO_STATE = "the certificate has no state of hart"
LIMIT, LATER = "the search", ": drawn"
# from here on an address may be a device's
FAR = 1 << 16


def not_shown(case):
    stops = [*case.shared.stops.items()][:HARTS]
    places = [stopped(case, hart, stop) for hart, stop in stops]
    hints = [outside(case, stop) for _, stop in stops if stop.is_outside()][:1]
    wraps = case.wraps()
    hints += wraps
    facts = []
    if NO_STATE not in case.first and case.said.named:
        named = case.said.named
        places.append(case.at(named.hart, named.pc, lacking(case)))
    elif NO_STATE not in case.first:
        facts.append(Line(f"why: {as_parties(case.first.removeprefix('not shown: '))}"))
        unused = case.hints["unused"]
        places += [case.at(each.hart, each.pc, f"{each.does()} this, {queue_hints.NEVER}") for each in unused if isinstance(each, Held)]
        hints += [each for each in unused if isinstance(each, str)][:UNUSED]
    for hart in case.found[:0 if stops else HARTS]:
        why = hart.why.partition(", where the hart's next ")[0]
        if hart.pc is None:
            facts.append(Line(f"P{hart.hart} is not followed: {why}"))
        else:
            places.append(case.at(hart.hart, hart.pc, f"not followed: {why}"))
    # what names a hart helps more than what is said of all
    hints += sorted(case.hints["uncovered"], key=lambda line: not line.startswith("hart"))[:not wraps]
    facts += [*of_drawn(case), *(Line(f"search: {line.partition(LATER)[0]}", SEARCH) for line in case.told if line.startswith(LIMIT))]
    longer = [] if stops else [Line(f"longer runs decide more: {each}", LONGER) for each in case.hints["longer"]]
    return Short(case.verdict(VERDICT), places[:HARTS], facts, hints=[*(Line(as_parties(line)) for line in hints), *longer], asked=[*case.asked()])


def lacking(case):
    """What the program says that an instruction mostly lacks."""
    likely = case.said.one(Likely)
    return f"isn't shown to be allowed there: {as_parties(likely.why)}" if likely else "isn't shown to be allowed there"


def stopped(case, hart, stop):
    return case.at(hart, stop.pc, f"stops here in {stop.runs} of {queue_runs.RUNS} drawn runs: {stop.why()}")


def outside(case, stop):
    """What helps where a hart stops at an access outside of memory: soon after its end none is thought to be a device's."""
    if stop.at < FAR:
        return "is an index or a pointer wrong there?"
    if case.places.types is None:
        return "if that is a device's register: a word of the text in its place, to which a further hart stores"
    return f"if that is a device's register: --input {stop.at:#x}:{stop.width}, from which any value may be loaded then"


def of_drawn(case):
    drawn = case.said.one(Drawn)
    if drawn:
        slots = "" if case.queues[0].has_tags else f", of {counted(case.queues[0].size, 'slot')}"
        yield Line(f"drawn runs: {drawn.runs} of {drawn.length} events keep it, {drawn.published / drawn.runs:.3g} positions published and "
                   f"{drawn.taken / drawn.runs:.3g} taken in each{slots}: this proves nothing", DRAWN)
