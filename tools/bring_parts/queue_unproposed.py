"""Why drawn runs propose no queue, for a person: what harts share there, who stores what, and what a compiler left out."""

from dataclasses import dataclass

from bring_parts import queue_hints, queue_kept, queue_runs, queue_unshown
from bring_parts.queue_places import Places, parted
from bring_parts.queue_shared import Shared
from bring_parts.queue_short import WEAK, At, Line, Short

VERDICT = "no queue is asked about: drawn runs propose none"
BY_HAND = Line("to describe it yourself: --queue head=..,tail=..,slots=.. or --tagged ..: docs/queues.md", WEAK)
OUTCOMES = "ask for outcomes by from-object and find: docs/queues.md, \"If it isn't one of these\""
# places that are stored by several are named of this many
STORERS = 2


class Hint(Line):
    """A line that is a guess."""


@dataclass(frozen=True)
class Nothing:
    """A case in which nothing is asked about."""
    test: object
    places: Places
    shared: Shared

    def at(self, hart, pc, says):
        return At(hart, pc, self.places.source(hart, pc), says)


def short(case):
    """The lines, of such a case."""
    stops = [*case.shared.stops.items()][:queue_unshown.HARTS]
    made = Short(VERDICT, [queue_unshown.stopped(case, hart, stop) for hart, stop in stops], limits=[BY_HAND])
    places = case.shared.places()
    for line in of_shared(case, places) if places else of_nothing_shared(case):
        if isinstance(line, At):
            made.places.append(line)
        elif not isinstance(line, Hint):
            made.facts.append(line)
        elif not stops:
            # of a hart that stops early nobody knows what else it would do
            made.hints.append(line)
    made.hints += [Line(queue_unshown.outside(case, stop)) for _, stop in stops if stop.is_outside()][:1]
    return made


def of_nothing_shared(case):
    shared = case.shared
    each = "; ".join(f"P{hart} stores {case.places.arrays(shared.stored_by(hart))} and loads {case.places.arrays(shared.loaded_by(hart))}"
                     for hart in range(shared.harts))
    yield Line(f"in {queue_runs.RUNS} drawn runs no hart stores to or loads what another one stores: {each}")
    yield Hint("of plain variables the compiler drops loads and stores in a loop: declare the indices volatile or atomic")


def of_shared(case, places):
    """What is said of the first reason that holds."""
    shared = case.shared
    yield Line(f"in drawn runs: {queue_kept.told(case, places)}")
    both = [at for at in places if len(shared.storers[at]) > 1]
    exchanged = [at for at in both if shared.is_exchanged(at)]
    past = [at for at in places if case.places.types and not case.places.name_of(at, 1)]
    unread = [at for at in shared.unread() if case.places.array(at).endswith("[]")]
    unstored = of_unstored(case)
    if exchanged and not (unread or past):
        yield Hint(f"{case.places.name(exchanged[0])} is exchanged by {parted(shared.storers[exchanged[0]])}, as of a lock or a triple buffer: no queue "
                   f"protocol fits; {OUTCOMES}")
    elif both:
        yield from of_both(case, both[0])
    elif past:
        hart, pc = next(iter(shared.storers[past[0]].items()))
        yield case.at(hart, pc, f"stores to {case.places.name(past[0])}, outside of each object: is a mask or a bound wrong?")
    elif unread:
        yield Line(f"stored and by no hart loaded: {case.places.arrays(unread)}")
        yield Hint(queue_hints.REMEDIES["loads from"])
    elif unstored:
        yield Line(f"loaded and by no hart stored: {case.places.arrays(unstored)}")
        yield Hint(queue_hints.REMEDIES["stores to"])
    else:
        yield Hint(f"drawn runs tell no indices and slots apart there: name them by --queue; of a seqlock {OUTCOMES}")


def of_unstored(case):
    """The array elements that a hart loads and none stores."""
    return [at for at in sorted(case.shared.loaders) if not case.shared.storers.get(at) and case.places.array(at).endswith("[]")]


def of_both(case, at):
    """What is said of a place that several harts store."""
    storers = case.shared.storers[at]
    if case.shared.is_flag(at):
        yield Line(f"{case.places.name(at)} tells by 0 and another number whose turn it is, and nothing near it is stored by one hart and loaded by the other")
        yield Hint("a mailbox is a queue with tags of one slot: --tagged slots=..,size=1,width=..,tag=..: docs/tags.md")
        return
    for hart, pc in sorted(storers.items())[:STORERS]:
        yield case.at(hart, pc, f"stores {case.places.name(at)}")
    beside = {hart: [each for each in case.shared.stored_beside(at, hart) if case.places.array(each) != case.places.array(at)] for hart in storers}
    if any(beside.values()):
        hart, beside = next((hart, each) for hart, each in beside.items() if each)
        yield Hint(f"P{hart}'s store to {case.places.name(at)} also stores to {case.places.arrays(beside)}: is a mask or a bound wrong?")
    elif case.shared.harts > STORERS:
        yield Hint("several senders or receivers keep no protocol here: give each its own queue, or ask for outcomes (docs/queues.md)")
    else:
        yield Hint("an index has one hart that stores it; opening values belong into definitions, or into a function that --init names")
