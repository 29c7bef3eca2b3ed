"""The answer for a person where a run breaks a queue, or loses a record: what is stored or loaded where, the run in one sentence, and what to change."""

from bring_parts import queue_faults, queue_kept, queue_runs
from bring_parts.queue_case import BROKEN
from bring_parts.queue_faults import Elsewhere, HandedBack, OtherSlot, Overwrites, PublishedFirst
from bring_parts.queue_said import Before, Drawn, Loaded, Looked, Next, NoneLost, Stored
from bring_parts.queue_short import DRAWN, LONGER, MODEL, WEAK, Line, Short
from bring_parts.queue_types import counted

import machine

BARRIER = '__asm__ volatile("" ::: "memory")'
OTHER = "does not keep the protocol described"
LIMIT = Line("not promised: that the queue is as described (index=, size=, ..), or has no other fault", MODEL)


class Break:
    """A store that breaks a queue: the queue, what the program says of the store, of what its hart did before, and of the record that is lost by it, the run,
    and the store in it."""

    def __init__(self, case):
        self.case, self.named, said = case, case.said.named, case.said
        self.stored, self.loaded, self.run = said.one(Stored), said.one(Loaded), case.run()
        self.next, self.before, self.looked = said.one(Next), said.one(Before), said.one(Looked)
        self.queue = case.queues[self.stored.queue]
        self.store = queue_faults.breaking(self.queue, self.named, said, self.run.entries) if self.is_of_sender() and self.run else None

    def is_of_sender(self):
        return self.named.hart == self.queue.sender and self.queue.meets_slots(self.stored.at, self.stored.width)

    def fault(self):
        return queue_faults.of_store(self.queue, self.store, self.run.entries, self.case.said) if self.store else None

    def name(self):
        return self.case.places.name(self.stored.at, self.stored.width)

    def at(self, pc, says):
        return self.case.at(self.named.hart, pc, says)

    def line(self, pc):
        return self.case.line(self.named.hart, pc)

    def short(self, verdict, places, facts=(), hints=(), run=None, shown=None):
        """The answer, with the run that the program shows where there is no other."""
        begin = "broken" if self.case.status == BROKEN else OTHER
        sentence = run or of_lost(self.case, self.queue, self.loaded, self.run)
        return Short(self.case.verdict(f"{begin}: {verdict}", self.queue), places, [*facts, *of_none_lost(self.case)], sentence, shown,
                     hints=[*map(Line, hints), *(Line(line, LONGER) for line in self.case.wraps())], limits=[LIMIT], asked=[*self.case.asked(shown)])


def broken(case):
    """Of a sender's store to a slot; and of any other, by what the program says."""
    found = Break(case)
    fault = found.fault()
    return SHORT[type(fault)](found, fault) if fault else plainly(found)


def of_lost(case, queue, loaded, run):
    """The run that the program shows, in a sentence: where a record lies, what is stored there then, and what is loaded in its place; or None."""
    if not loaded:
        return None
    load, name = run.entries[-1], case.places.name(loaded.at, loaded.width)
    stores = [entry for entry in run.entries if entry.hart == queue.sender and entry.stores_to(loaded.at, loaded.width) and entry.width == loaded.width]
    last = next((entry for entry in reversed(stores) if entry.value == loaded.value), None)
    wrote = f"P{queue.sender} stores {last.value} there, then " if last else ""
    return (f"record {loaded.position} lies in {name}; {wrote}P{load.hart} loads {loaded.value} ({case.line(load.hart, load.pc)}), "
            f"not {sent(loaded, [entry for entry in stores if entry is not last])}")


def sent(loaded, stores):
    """What was sent in place of what is loaded: the number that was stored so, or the byte."""
    value = next((entry.value for entry in stores if entry.value >> 8 * (loaded.byte - loaded.at) & 0xFF == loaded.sent), None)
    return f"what was sent (its byte at {loaded.byte} was {loaded.sent})" if value is None else str(value)


def of_none_lost(case):
    """That no record is lost, where the program drew runs for that."""
    found = case.said.one(NoneLost)
    return [Line(f"no record is lost after such a store in {found.runs} drawn runs of {found.length} events, so nothing says that one is")] if found else []


# ---- the faults of a sender

def published_first(found, fault):
    case, queue, pc = found.case, found.queue, found.named.pc
    run, shown = early(case, queue, fault.index.pc, pc)
    if is_before(*(case.places.source(found.named.hart, each) for each in (pc, fault.index.pc))):
        hint = (f"the source stores the record first, so the compiler moved it: store the index by __atomic_store_n(.., __ATOMIC_RELEASE), or put {BARRIER} "
                f"before {found.line(fault.index.pc)}")
    else:
        lines = [found.line(each) for each in (pc, fault.index.pc)]
        move = f": move {lines[0]} above {lines[1]}" * (lines[0] != lines[1])
        hint = f"store the record before the {'tag' if queue.has_tags else 'index'}{move}, or publish less there"
    places = [found.at(fault.index.pc, "publishes it"), found.at(pc, "stores the record, later: this breaks it")]
    return found.short("a position is published before its record is stored", places, hints=[hint], run=run, shown=shown)


def is_before(source, other):
    """Whether a line stands before another one of the same file."""
    return None not in (source.line, other.line) and source.file == other.file and source.line < other.line


def early(case, queue, index_pc, store_pc):
    """A run in which the receiver loads what was in the slot before the record, in a sentence, and what a report draws; if the program replays it so."""
    for run, shown in queue_runs.taken_early(case.test, case.buffer, queue, index_pc, store_pc):
        index, load, store = shown.published, shown.load, shown.store
        if case.replays(run):
            names = [case.places.name(entry.at, entry.width) for entry in (index, store)]
            lines = [case.line(entry.hart, entry.pc) for entry in (index, load)]
            return (f"P{index.hart} stores {names[0]} = {index.value} ({lines[0]}); P{load.hart} sees it and loads {load.value} from {names[1]} ({lines[1]}); "
                    f"only then P{store.hart} stores {store.value} there: the record should have been {store.value}", shown)
    return None, None


def overwrites(found, fault):
    case, queue = found.case, found.queue
    head, tail = case.places.indices(queue)
    store = queue_faults.overwriting(queue, found.store, found.run.entries, found.loaded)
    places = [found.at(found.named.pc, f"stores to {case.places.name(store.at, store.width)}, a slot that it doesn't own")]
    if not fault.look:
        hint = f"look at {tail} before {found.line(found.named.pc)}, and store nothing where {queue.size} slots are in use"
        return found.short(f"a full queue is written to, without a look at {tail}", places, hints=[hint])
    own = f"{head} {fault.head.value}" if fault.head else f"{head} as it opened"
    places.append(found.at(fault.look.pc, f"its last look before: {tail} was {fault.look.value}, and {own}"
                           + f", {fault.since} stores to it since" * (fault.since > 1)))
    return found.short("a full queue is written to", places, hints=[of_used(queue)])


def of_used(queue):
    """What a full queue is."""
    told = ""
    if queue.capacity < queue.size:
        is_whole = queue.scale * queue.modulus == 256 ** queue.index_width
        told = f" (indices of {counted(queue.index_width, 'byte')} tell no more)" if is_whole else f" ({queue.size - queue.capacity} stays free)"
    return f"all {queue.capacity} slots are in use then{told}, and the code goes on: compare the test after that look"


def elsewhere(found, fault):
    queue, slot, owned = found.queue, fault.slot, fault.last - fault.next + 1
    places = [found.at(found.named.pc, f"stores {found.store.value} to {found.name()}, slot {slot}")]
    those = f"positions {fault.next} to {fault.last}" if owned > 1 else f"position {fault.next} alone"
    fact = f"its next position is {fault.next}, in slot {fault.next % queue.size} of {queue.size}: it owns {those}, and none in slot {slot}"
    ahead = (slot - fault.next) % queue.size
    if owned <= ahead < queue.size // 2:
        hint = f"does the test for room ask for all that is stored? Else compare the index's mask or modulus with {queue.size}"
    elif ahead == queue.size - 1:
        hint = f"slot {slot} is that of position {fault.next - 1}, which is published: store to it before, or is the index's mask wrong?"
    else:
        hint = f"compare the mask or the modulus of that index with {queue.size} slots (a mask is one less), or size= is wrong"
    return found.short(f"P{found.named.hart} stores to slot {slot}, of which it owns no position", places, [Line(fact)], [hint])


def plainly(found):
    """Of a store about which nothing more is known."""
    stored = found.stored
    name = found.case.places.name(stored.at, stored.width)
    owned = stored.owned if stored.is_of_party else "owned none, as it is neither party"
    owned = f"owned position {stored.first} alone" if stored.first is not None and stored.first == stored.last else owned
    places = [found.at(found.named.pc, f"stores {stored.value} to {name}, and {owned}: this breaks it")]
    hint = "is the queue described rightly? Else see docs/queues.md, \"If it isn't kept\""
    return found.short(f"P{found.named.hart} {does(found)}", places, did_before(found), [hint])


def did_before(found):
    """What the hart of such a store did before it, as far as the program says."""
    names = {} if found.queue.has_tags else dict(zip(("its head", "its tail"), found.case.places.indices(found.queue)))
    parts = [f"its next position is {found.next.position}, in slot {found.next.slot}"] if found.next else []
    parts += [f"before, it stored {each.value} to {names.get(each.where, each.where)} ({found.line(each.pc)})" for each in [found.before] if each]
    parts += [f"it last loaded {each.value} from {names.get(each.where, each.where)} ({found.line(each.pc)})" for each in [found.looked] if each]
    return [Line("; ".join(parts), WEAK)] if parts else []


def does(found):
    """What such a store does."""
    queue, stored, hart = found.queue, found.stored, found.named.hart
    if not queue.has_tags and (stored.at, hart) in ((queue.head, queue.sender), (queue.tail, queue.receiver)):
        return f"{'publishes' if hart == queue.sender else 'hands back'} more than it owns"
    if queue.meets_slots(stored.at, stored.width):
        return "stores to a slot that it doesn't own"
    return f"stores to {found.case.places.name(stored.at, stored.width)}"


SHORT = {PublishedFirst: published_first, Overwrites: overwrites, Elsewhere: elsewhere}


# ---- a store that the protocol doesn't have

def other(case):
    found = Break(case)
    if not found.queue.has_tags and found.is_of_sender():
        return broken(case)
    hart, queue = found.named.hart, found.queue
    owner = {} if queue.has_tags else {queue.head: queue.sender, queue.tail: queue.receiver}
    places, is_owners = [found.at(found.named.pc, "breaks it")], owner.get(found.stored.at) in (None, hart)
    if not is_owners:
        places, hint = of_owner(case, found, owner[found.stored.at], places[0])
    elif not found.stored.is_of_party:
        hint = (f"P{hart} is neither its sender nor its receiver, and stores to the queue: a queue has one of each here; several need one queue each, or ask "
                "for outcomes")
    elif queue.has_tags:
        hint = "a store hands over one whole tag: is tag=, tells=, start=, size= or sender= not as the code has it? Else a queue of another kind"
    else:
        hint = "head= and tail= exchanged, sender=, index= or size= not as the code has it; else a queue of another kind"
    return found.short(f"P{hart} stores {found.stored.value} to {found.name()}", places, did_before(found), [hint])


def of_owner(case, found, owner, place):
    """The places, and what helps, of a store to the other party's index: where drawn runs saw that party store it, too."""
    pcs, hart = case.shared.storers.get(found.stored.at, {}), found.named.hart
    if owner not in pcs:
        return [place], f"P{owner}, whose index that is as described, doesn't store it: are head= and tail= exchanged, or does P{owner} send (sender=)?"
    hint = of_init(found) if is_at_begin(case.test.codes[hart], found.named.pc) else of_both(found, owner)
    return [place, case.at(owner, pcs[owner], f"stores it too, and alone should: it is P{owner}'s index")], hint


def of_init(found):
    return (f"P{found.named.hart} does this before all else, as an init function does: let one function do it that no hart calls, and name that by --init; or "
            f"give {found.name()} its opening value in its definition")


def of_both(found, owner):
    return f"a queue has one hart for each index: let P{owner} alone store {found.name()}, or describe a queue of another kind"


def is_at_begin(code, pc):
    """Whether a hart comes to a pc once, before each loop of its code."""
    here = pc // 4
    return not any(at >= here and at + instruction[-1] // 4 <= here for at, instruction in enumerate(code)
                   if instruction[0] in machine.CONDITIONS or instruction[0] == "jal")


# ---- reads

def reads(case):
    """Of a load that may be of a slot which its hart doesn't own."""
    named, loaded = case.said.named, case.said.one(Loaded)
    queue = case.queues[named.queue]
    if not loaded:
        drawn = case.said.one(Drawn)
        facts = [Line("no drawn run loses a record by it; nothing is promised of what it loads")]
        facts += [Line(f"drawn runs: {drawn.runs} of {drawn.length} events keep it: this proves nothing", DRAWN)] if drawn else []
        return Short(case.verdict("kept, but reads not shown", queue), [case.at(named.hart, named.pc, "may load from a slot that it doesn't own")], facts,
                     others=[*queue_kept.of_others(case)], asked=[*case.asked()])
    run = case.run()
    load = run.entries[-1]
    fault = queue_faults.of_load(queue, load, run.entries, case.said)
    made = {HandedBack: handed_back, OtherSlot: other_slot}.get(type(fault), unowned)(case, queue, run, load, fault)
    made.verdict = case.verdict("a record is lost (protocol kept, but reads not shown)", queue)
    made.run = made.run or of_lost(case, queue, loaded, run)
    made.asked = [*case.asked()]
    return made


def handed_back(case, queue, run, load, fault):
    hart, index = load.hart, fault.index
    places = [case.at(hart, index.pc, "hands the slot back"), case.at(hart, load.pc, "reads it afterwards, when the sender may have stored there")]
    stores = [entry for entry in run.entries if entry.hart == queue.sender and entry.stores_to(load.at, load.width)]
    between = [entry for entry in stores if index.number < entry.number < load.number]
    sentence = None
    if between and between[-1].width == load.width:
        was = sent(case.said.one(Loaded), [entry for entry in stores if entry.width == load.width])
        store = between[-1]
        sentence = (f"P{hart} hands {case.places.name(load.at, load.width)} back ({case.line(hart, index.pc)}), P{queue.sender} stores {store.value} there "
                    f"({case.line(queue.sender, store.pc)}), and P{hart} loads {load.value} ({case.line(hart, load.pc)}) in place of {was}")
    if is_before(*(case.places.source(hart, pc) for pc in (load.pc, index.pc))):
        hint = f"the source reads it before, so the compiler moved it: put {BARRIER} before {case.line(hart, index.pc)}"
    else:
        lines = [case.line(hart, pc) for pc in (load.pc, index.pc)]
        hint = "read the record before the slot is handed back" + f": move {lines[0]} above {lines[1]}" * (lines[0] != lines[1])
    return Short("", places, run=sentence, hints=[Line(hint)])


def other_slot(case, queue, _, load, fault):
    hart, slot = load.hart, queue_faults.slot_of(queue, load.at)
    place = case.at(hart, load.pc, f"reads slot {slot}; its next position is {fault.position}, in slot {fault.position % queue.size} of {queue.size}")
    hint = (f"compare the mask or the modulus of that index with {queue.size} slots, or what is read after {case.line(hart, fault.index.pc)}")
    return Short("", [place], hints=[Line(hint)])


def unowned(case, _, __, load, ___):
    return Short("", [case.at(load.hart, load.pc, "reads a slot that it may not own")])
