"""The answer for a person where every run keeps the protocol: what one may rely on, and what isn't shown beside it."""

from bring_parts import listed, queue_unshown
from bring_parts.queue_case import FENCES
from bring_parts.queue_places import as_parties, few, parted
from bring_parts.queue_said import GoesOn, HartNotShown, NoBytes, Records, RecordsNotShown, SharesNotShown, Stands, Waits
from bring_parts.queue_short import FENCES as OF_FENCES
from bring_parts.queue_short import LONGER, WEAK, Line, Short
from bring_parts.queue_types import ranges_in

# this many accesses without a fence between are named, and places where a party may stand
LACKING, STANDING = 2, 2
GOES_ON = "goes on"
ONCE = "read at most once"
# beside the queues, and inputs, which the verdict names
ALONE = "nothing else is shared"


def parties(case):
    """How the parties are called: of several queues by what they do."""
    queue = case.queues[0]
    return ("its sender", "its receiver") if len(case.queues) > 1 else (f"P{queue.sender}", f"P{queue.receiver}")


def kept(case):
    sender, receiver = parties(case)
    tags = ", or tags" * any(queue.has_tags for queue in case.queues)
    relies = [of_records(case, sender), f"{sender} stores to no slot that {receiver} hasn't handed back, and {receiver} loads only published ones{tags}"]
    places, hints = of_stops(case)
    others = [*of_fences(case), *of_others(case)]
    in_one = [*of_progress_in_one(case, sender, receiver)]
    return Short(case.verdict(case.first), places, relies=[*relies, *of_progress(case, sender, receiver)], joined=in_one and [*relies, *in_one],
                 hints=[*map(Line, (*hints, *case.hints["constants"]))], limits=[not_promised(case, receiver)], others=others, asked=[*case.asked()])


def of_stops(case):
    """The first place where a hart stops in drawn runs, and what helps there: what it would do after is no part of any run."""
    stops = [*case.shared.stops.items()][:1]
    return ([queue_unshown.stopped(case, hart, stop) for hart, stop in stops], [queue_unshown.outside(case, stop) for _, stop in stops if stop.is_outside()])


def of_records(case, sender):
    shown = [each for each in case.said.all(Records) if each.queue == 0 and each.use != ONCE]
    if len(case.queues) == 1 and len(shown) == 2 and shown[0].bytes == shown[1].bytes:
        once = any(each.bytes == shown[0].bytes for each in case.said.all(Records) if each.use == ONCE)
        return (f"each position is handed over once, in order, byte{'s' * (not shown[0].bytes.isdigit())} {shown[0].bytes} written before and"
                f" read{' once' * once} after")
    return f"each position{' of each' * (len(case.queues) > 1)} is handed over once and in order, with all that {sender} wrote before it"


def of_progress(case, sender, receiver):
    """How soon a queue goes on, and that nothing else is shared, each where it is proved."""
    if len(case.queues) > 1:
        said = ["each goes on while its harts run (--lines says how soon)"] * (GOES_ON in case.kept) + [ALONE] * case.shares_queues_alone()
        yield from [", and ".join(said)] * bool(said)
        return
    found = {each.moves: each for each in case.said.all(GoesOn)}
    if len(found) == 2:
        publishes, takes = found["publishes"], found["takes"]
        yield f"{sender} publishes or finds {publishes.finds} in {publishes.within} instructions, {receiver} takes or finds {takes.finds} in {takes.within}"
    if case.shares_queues_alone():
        harts = "P0 and P1" if len(case.test.codes) == 2 else "the harts"
        yield f"{harts} share {listed(case.places.parts(case.queues[0]))}, and nothing else{' except inputs' * case.places.has_inputs()}"


def of_progress_in_one(case, sender, receiver):
    """The same of one queue in one line."""
    found = {each.moves: each.within for each in case.said.all(GoesOn)}
    if len(case.queues) == 1 and len(found) == 2 and case.shares_queues_alone():
        yield f"{sender} goes on or finds it must wait in {found['publishes']} instructions, {receiver} in {found['takes']}; {ALONE}"


def not_promised(case, receiver):
    once = {each.queue: sum(last + 1 - first for first, last in ranges_in(each.bytes)) for each in case.said.all(Records) if each.use == ONCE}
    is_whole = all(once.get(number, 0) + (queue.tag_width if queue.has_tags else 0) >= queue.width for number, queue in enumerate(case.queues))
    twice = "" if is_whole else " (it may read other bytes twice)" if len(once) == len(case.queues) else " (it may read one twice)"
    return Line(f"not promised: what {receiver} does with a record{twice}, other memory, other flags, RV64")


def of_fences(case):
    """What stands between records and indices, for harts without Ztso."""
    lacking = [(fences, order) for fences in case.fences for order in fences.lacking()]
    if case.status == FENCES:
        for fences, order in lacking[:LACKING]:
            lines = ", ".join(case.line(order.hart, pc) for pc in order.between.lack)
            yield Line(f"no fence: P{order.hart} {order.does(fences.index)} ({lines}) with none between")
    elif lacking and all(fences.are_none() for fences in case.fences):
        yield Line("on harts without Ztso: nothing, no fence stands between records and indices (--require-fences asks)", OF_FENCES)
    elif lacking:
        yield Line("on harts without Ztso: nothing, fences stand on some ways alone (--require-fences asks)", OF_FENCES)
    elif any(fences.orders for fences in case.fences):
        yield Line("on harts without Ztso: nothing is proved, but fences stand on each way", OF_FENCES)


# ---- what harts share beside the queues

def of_others(case):
    """What harts share outside of the queues: what drawn runs see of it, and what isn't proved to be unshared."""
    if case.outside:
        yield Line(f"not asked: {told(case, case.outside)} (in drawn runs), no part of {'these queues' if len(case.queues) > 1 else 'this queue'}")
    if case.unseen:
        yield Line(f"not shown that the harts don't share {few(case.unseen)}: no drawn run does")
    if case.kept.startswith("kept") and case.said.shared() is None:
        why = [f": P{each.hart} ({case.line(each.hart, each.pc)}) may load or store anywhere" for each in case.said.all(SharesNotShown)]
        yield Line("".join(["not shown what else the harts share", *why]))


def told(case, places):
    """`tx.head, which P1 stores and P0 loads`, and so on, joined by who does what."""
    groups = {}
    for at in places:
        names = groups.setdefault(case.shared.who(at), [])
        if (name := case.places.array(at)) not in names:
            names.append(name)
    return "; ".join(f"{few(names)}, which {does(*who)}" for who, names in groups.items())


def does(storers, loaders):
    return f"{parted(storers)} store{'s' * (len(storers) == 1)}" + f" and {parted(loaders)} load{'s' * (len(loaders) == 1)}" * bool(loaders)


def other_queue(case):
    """The description of a further queue: of one that is called as the first but for its object, where that is among what isn't asked about; or None."""
    queue, types = case.queues[0], case.places.types
    if queue.has_tags or not types:
        return None
    names = [*case.places.indices(queue), case.places.slots(queue)]
    base = names[0].rpartition(".")[0]
    for other in dict.fromkeys(case.places.array(at).rpartition(".")[0] for at in case.outside) if base else ():
        head, tail, slots = (name.replace(f"{base}.", f"{other}.", 1) for name in names)
        if other and {head, tail, f"{slots}[0]"} <= types.begins.keys():
            storers = [case.shared.who(types.begins[name])[0] for name in (head, tail)]
            is_known = all(len(each) == 1 for each in storers) and storers[0] != storers[1]
            said = f",sender={min(storers[0])},receiver={min(storers[1])}" if is_known else ", with its sender= and receiver="
            return f"head={head},tail={tail},slots={slots}{said}"
    return None


# ---- what isn't shown

def not_all(case):
    """Kept, and not all that was asked is shown."""
    places, stopping = of_stops(case)
    places += [case.at(each.hart, each.pc, of_bytes(case, each)) for each in case.said.all(RecordsNotShown)]
    places += [case.at(each.hart, each.pc, f"not shown {each.what}") for each in case.said.all(HartNotShown)]
    facts = [Line(f"{case.title(case.queues[each.queue])}: its records have none of the bytes that were asked for") for each in case.said.all(NoBytes)]
    facts += of_others(case)
    hints = [*map(Line, stopping), *(Line(line, LONGER * bool(at)) for at, line in enumerate(case.hints["asked"]))]
    if case.is_auto and (case.outside or case.unseen):
        other = other_queue(case)
        hints.append(Line(f"a second queue may be --queue {other}" if other else
                          "ask of the other queue too, with a --queue for each; if it is none, describe this one by --queue in place of auto"))
    shown = f"its protocol{' of each' * (len(case.queues) > 1)} holds in every run{', and it goes on' * (GOES_ON in case.kept)}"
    shown += f"; {ALONE}" * case.shares_queues_alone()
    return Short(case.verdict(case.first), places[:STANDING], facts, relies=[shown], hints=hints, limits=[not_promised(case, parties(case)[1])],
                 asked=[*case.asked()])


def of_bytes(case, each):
    """What is said of bytes of records that aren't shown to be written, or read."""
    queue, types = case.queues[each.queue], case.places.types
    name = next((name for begin, end, name in types.of_record(queue) if begin <= each.byte < end), None) if types else None
    byte = f"byte {each.byte}{f' ({name})' if name else ''}"
    if each.use == ONCE:
        return f"not shown that {byte} of each record is read at most once, and of records in order"
    return (f"publishes a record of which {byte} isn't shown to be written before" if each.use == "written" else
            f"hands a slot back of which {byte} isn't shown to be read before")


def stuck(case):
    """Kept, and not shown to go on."""
    stands = case.said.all(Stands)
    places = [case.at(each.hart, each.pc, f"not shown that P{each.hart} {each.what()}") for each in stands[:STANDING]]
    facts = [Line(f"not shown that more is published or taken: P{each.hart} may wait for {each.slots} free slots and P{each.other} for {each.records} records, "
                  f"of {each.capacity}") for each in case.said.all(Waits)]
    hints = [Line(as_parties(line)) for line in case.hints["stuck"]]
    if stands and not hints:
        hints.append(Line("if it waits there for something else, as for an input, ask with --safety", WEAK))
    relies = [f"positions arrive in order, each once, with all written before; {ALONE if case.shares_queues_alone() else 'not on more'}"]
    return Short(case.verdict(case.first), places, facts, relies=relies, hints=hints, others=[*of_others(case)], asked=[*case.asked()])
