"""What helps after an answer of `ztso queue`."""

import re
from dataclasses import dataclass

from bring_parts import listed
from bring_parts.queue_said import Drawn, RecordsNotShown, Said, Stands, Together, Unused
from bring_parts.queue_types import counted, ranges_in
from bring_parts.queue_uncovered import of_uncovered
from bring_parts.queue_words import word_of_count
from certify_parts.live import needed_of
from certify_parts.queues import Queue
from certify_parts import tags

import assembly
import certificates
import litmus
import progress
import queue_questions
from queues import Judge
from words import text as text_of_instruction

# the instructions of each use, and the word for one
USES = {"loads from": ("load", assembly.LOADS), "stores to": ("store", assembly.STORES)}
REMEDIES = {"loads from": "the compiler leaves out a load whose value nobody uses: store what was received to a volatile object, or return it",
            "stores to": "the compiler leaves out a store that nobody can read: let both functions use one global object"}
NEVER = "in any state: it waits there for ever, or the test always goes one way"
# what `likely:` says of an index, and what that is of a queue with tags
TAGS = {"another count to its index": "of a queue with tags: it may store a part of a tag, or a tag that doesn't hand its own position over",
        "the other party's index": "of a queue with tags: what a tag that it loads may tell leads to a state that isn't listed"}
# what follows where another protocol may fit
FIT = "another protocol may fit: "
OTHERS = ("of a triple buffer, a seqlock, a lock or several senders ask for outcomes, with from-object and find: "
          "docs/queues.md, \"If it isn't one of these\"")
BROKEN = re.compile(r"queue ([0-9]+): it stored ")
QUEUE = re.compile(r"^(queue|tagged) (.*)$", re.MULTILINE)
INDICES = {"publishes": ("head", "tail"), "takes": ("tail", "head")}
VOLATILE = "declare it volatile or atomic"
# to which length longer runs are proposed, how many of them, and to how many counts an index is thought to turn in one
LONGEST, FEW_RUNS, MOST_COUNTS = 100_000, 20, 1 << 16


def queues_of(certificate):
    """The queues of a certificate's text."""
    kinds = {"queue": lambda words: Queue(*map(int, words)), "tagged": tags.of_words}
    return [kinds[kind](words.split()) for kind, words in QUEUE.findall(certificate)]


def queues_with(hart, certificate):
    """The numbers of the queues of which a hart is a party."""
    return [str(at) for at, queue in enumerate(queues_of(certificate)) if hart in (queue.sender, queue.receiver)]


def states_of(certificate, hart):
    """Of a hart's part of a certificate the places in its code that have states, and whether it ever moves a count of its own."""
    part = re.split(r"^hart$", certificate, flags=re.MULTILINE)[1 + hart]
    return {int(pc) // 4 for pc in re.findall(r"^state ([0-9]+)", part, re.MULTILINE)}, bool(re.search(r"^leaf (?!0$)", part, re.MULTILINE))


def nexts(code, at):
    """The places to which an instruction of a hart's code may lead, returns and computed jumps aside."""
    name = code[at][0]
    to = [at + code[at][-1] // 4] if name in assembly.BRANCHES or name == "jal" else []
    return {each for each in to + [at + 1] * (name not in ("jal", "jalr")) if 0 <= each < len(code)}


def reaches(code, at, names):
    """Whether an instruction of one of these names can be reached from a place, by its code."""
    seen, new = set(), {at}
    while new:
        seen |= new
        new = {each for one in new for each in nexts(code, one)} - seen
    return any(code[each][0] in names for each in seen)


@dataclass(frozen=True)
class Held:
    """A branch of a party after which no state of its certificate uses its slots, and which use that is."""
    hart: int
    pc: int
    what: str
    instruction: str

    def does(self):
        return f"reaches no {self.what} after"

    def line(self):
        return f"hart {self.hart} {self.does()} pc {self.pc}, {self.instruction}, {NEVER}"


def held(number, use, certificate, test):
    """The branch that never lets a party go on to where it may use its slots, or None."""
    queue, (what, names) = queues_of(certificate)[number], USES[use]
    hart = queue.sender if what == "store" else queue.receiver
    code, names = test.codes[hart], {*names, *assembly.AMOS.values()}
    places, _ = states_of(certificate, hart)
    ways = [(at, to) for at in sorted(places) if at < len(code) and code[at][0] in assembly.BRANCHES for to in nexts(code, at) - places]
    found = next((at for at, to in ways if reaches(code, to, names)), None)
    return None if found is None else Held(hart, 4 * found, what, text_of_instruction(code[found], None))


def of_use(number, use, certificate, test):
    """What helps where no state of a queue's party uses its slots: a branch after which it might, and what the compiler left out. Without the text only
    this."""
    found = held(number, use, certificate, test) if test else None
    if found:
        yield found
    queue = queues_of(certificate)[number]
    party = queue.sender if USES[use][0] == "store" else queue.receiver
    if not found or states_of(certificate, party)[1]:
        yield "or " * bool(found) + REMEDIES[use]


def of_unused(answer, certificate, test):
    """The same of an answer: that a queue's sender stores to no slot of it, or its receiver loads from none."""
    for unused in Said(answer).all(Unused):
        yield from of_use(unused.queue, unused.use, certificate, test)


def of_wraps(texts):
    """A line for each --queue whose counts wrap where no turn of the slots ends. What is malformed is left to tools/certify."""
    for number, text in enumerate(texts):
        given = {"bytes": "4", "scale": "1", **dict(part.partition("=")[::2] for part in text.split(","))}
        width, size, scale = (int(given.get(name, "")) if given.get(name, "").isdigit() else 0 for name in ("bytes", "size", "scale"))
        modulus = given.get("modulus", "" if given.get("index") == "wrapping" or not scale else str(256 ** min(width, 4) // scale))
        if size and modulus.isdigit() and int(modulus) % size:
            wraps = {256 ** power: f"2^{8 * power}" for power in (1, 2, 4)}.get(int(modulus), modulus)
            yield (f"queue {number}: its counts wrap at {wraps}, which is no multiple of its {size} slots, so position and slot part there, unless the "
                   "slots have numbers of their own: take a power of two, or index=wrapping")


def of_bytes(asked, queues):
    """A line for each option, and each queue whose records don't have all the bytes that it asks for."""
    for option, given in asked.items():
        for number, queue in enumerate(queues):
            if any(last >= queue.width for _, last in ranges_in(given or "")):
                yield f"--{option} {given}: a record of queue {number} has {counted(queue.width, 'byte')}, so at most 0-{queue.width - 1} are asked for"


def is_met(place, width, stored):
    """Whether a store touches these bytes. Each is from a byte on up to another one, or anywhere."""
    return any(where is None or where[0] < place + width and place <= where[1] for where in stored)


def loaded(judge, number):
    """The words of a hart's own, each its first byte and its bytes, that it loads for more than what it stores to others' words; and where it stores."""
    hart, own = queue_questions.Hart(judge.opening, judge.listed, number), {(each.at, each.width) for each in judge.listed.harts[number].own}
    stores = [(judge.pc(number, state), where) for state, where in hart.touches(stores=True)]
    needed = needed_of(hart.code, {pc for pc, where in stores if any(is_met(*each, [where]) for each in own)}).registers
    found = set()
    for _, known in hart.leaves:
        access = hart.steps.accessed(known, certificates.instruction_at(hart.code, known.pc))
        if access and access[3] and hart.code[known.pc // 4] >> 7 & 31 in needed[known.pc // 4 + 1]:
            bounds = certificates.bounds(known.ranges, access[0])
            found |= {(bounds.low, access[2])} & own if bounds and bounds.low == bounds.high else set()
    return found, [where for _, where in stores]


def of_constants(judge, types):
    """A line where a hart's own words change nowhere, and their author lets expect that they do."""
    found = [loaded(judge, number) for number in range(len(judge.listed.harts))]
    places = sorted(set().union(*(own for own, _ in found)))
    stored = [where for _, stores in found for where in stores]
    names = [types.name_at(*each) for each in places if not is_met(*each, stored)]
    names = list(dict.fromkeys(name for name in names if name and types.is_volatile(name)))
    if names:
        which, they, one = ("which are", "each", "one") if len(names) > 1 else ("which is", "it", "it")
        yield (f"no hart stores to {listed(names)}, {which} volatile or atomic: in every run {they} is what it opens as. Where {one} is an input: --input "
               f"{names[0] if len(names) == 1 else 'NAME'}")


def counting(queue):
    """How a queue's indices count, in words."""
    if (queue.base, queue.scale, queue.offset) != (0, 1, 0) or queue.modulus not in (queue.size, 256 ** queue.index_width):
        return f"whose word of count n is {word_of_count(queue.base, queue.scale, queue.offset, queue.modulus)}"
    return "that go back to 0 after the last slot" if queue.modulus == queue.size else "that count on"


def bits_told(tells):
    """How some bits of a tag tell of a free slot, and in odd rounds, if that turns."""
    in_odd = f", in odd rounds {tells.odd_free:#x}" if isinstance(tells, tags.PhasesTell) else ""
    return f"its bits under {tells.mask:#x} {tells.free:#x} where it is free{in_odd}"


def or_described_wrong(number, queue):
    """What is to be looked at where a queue is broken."""
    slots = f"{counted(queue.size, 'slot')} of {counted(queue.width, 'byte')}"
    has_more = queue.has_tags and queue.has_tags_apart() and queue.tag_stride > queue.tag_width
    if queue.has_tags:
        told = {"zero": "0 where it is free", "number": "the position's number where it is free"}.get(queue.tells) or bits_told(queue.tells)
        of_each = f"element of {counted(queue.tag_stride, 'byte')} from {queue.tags} on" if queue.has_tags_apart() else ""
        form = f"{slots} with the tag in bytes {queue.tag_offset}-{queue.tag_offset + queue.tag_width - 1} of each{' ' * bool(of_each)}{of_each}, {told}"
        keys = f"size=, width=, tag=, {'tags=, tag_stride=, ' * bool(of_each)}tells=, sender= and receiver="
    else:
        form = f"{slots} with indices of {counted(queue.index_width, 'byte')} {counting(queue)}"
        keys = (f"size=, width=, bytes=, index={'counting' if queue.modulus == queue.size else 'wrapping'}, whether head= and tail= are exchanged, and "
                f"sender={queue.receiver},receiver={queue.sender} if P{queue.receiver} sends")
    beside = "; no store to an element's other bytes is of this protocol: words beside a tag belong into its slot"
    return f"if queue {number} isn't {form}, the fault is in its description: see {keys}{beside * has_more}"


def of_tags(line, queues):
    """What a line on what is likely means of a queue with tags."""
    if line.startswith("likely: ") and any(queue.has_tags for queue in queues):
        yield from (meant for index, meant in TAGS.items() if index in line)


@dataclass(frozen=True)
class Longer:
    """Longer runs to draw of a queue: how many positions one published, how many one turn of its slots or its index has, and how many events and runs."""
    number: int
    published: float
    turn: int
    of: str
    length: int
    runs: int

    def options(self):
        return f"--length {self.length} --runs {self.runs}"

    def line(self):
        return (f"queue {self.number}: the runs published about {self.published:g} positions each, and one turn of its {self.of} is {self.turn}: try "
                f"{self.options()}")


def longer(queue, drawn):
    """What to try where drawn runs of a queue that isn't shown came only so far, or None."""
    turn = queue.size if queue.has_tags or queue.modulus > MOST_COUNTS else max(queue.size, queue.modulus)
    proposed = min(LONGEST, 1000 * -(-2 * turn * drawn.length * drawn.runs // (max(drawn.published, 1) * 1000)))
    if drawn.published >= 2 * turn * drawn.runs or proposed <= drawn.length:
        return None
    return Longer(drawn.queue, round(drawn.published / drawn.runs, 1), turn, "slots" if turn == queue.size else "index", proposed, FEW_RUNS)


def of_longer(answer, certificate):
    """The longer runs that may decide of the queues of an answer."""
    queues = queues_of(certificate)
    return [*filter(None, (longer(queues[drawn.queue], drawn) for drawn in Said(answer).all(Drawn)))]


def added(lines, certificate):
    """The lines of an answer, with what helps after one of them."""
    queues = queues_of(certificate)
    for line in lines:
        yield line
        yield from of_tags(line, queues)
        if line.startswith(FIT):
            yield OTHERS
        if shape := BROKEN.match(line):
            yield or_described_wrong(int(shape[1]), queues[int(shape[1])])


def at_end(answer, found, notes, certificate, test=None):
    """What helps at the end of an answer. `found` is what tools/certify says of the harts, and `test` the text's."""
    queues = queues_of(certificate)
    is_broken = answer.startswith(("broken", "does not keep"))
    if not is_broken:
        yield from (each.line() if isinstance(each, Held) else each for each in of_unused(answer, certificate, test))
    yield from dict.fromkeys(of_uncovered(found, notes, queues, test, is_broken))
    yield from (each.line() for each in of_longer(answer, certificate))


def of_asked(answer, by_types, unsaid):
    """What is said where bytes of records aren't shown to be written, or read, and nobody named these: by these options they weren't said."""
    found = [option for option in dict.fromkeys(each.use for each in Said(answer).all(RecordsNotShown)) if option in unsaid]
    if by_types and found:
        asked = "all bytes of a record are asked for since by the types none is" if by_types == "all" else (
            f"bytes {by_types} of a record are asked for since by the types they aren't")
        yield f"{asked} padding: {' and '.join(f'--{option} none' for option in found)} {'do' if len(found) > 1 else 'does'}n't ask"
        if "read" in found:
            yield f"{REMEDIES['loads from']}; of records that a loop takes it isn't always shown"


def looks_of(number, hart, text, certificate):
    """The pcs at which a hart loads the other party's index."""
    judge = Judge(litmus.read(text), certificate)
    party = progress.Hart(judge.opening, judge.listed, hart)
    return sorted({judge.pc(hart, state) for state, leaves in enumerate(party.leaves) if any(party.looks(number, leaf) for leaf in leaves)})


class Indices:
    """What indices are called without a source, and whether a compiler may drop accesses to one."""

    @staticmethod
    def called(number, index):
        return f"{index} of queue {number}"

    @staticmethod
    def may_be_dropped(*_):
        return True


def of_party(stands, text, certificate, indices):
    """A line for a party that isn't shown to go on, by its code, or None."""
    number, hart = stands.queue, stands.hart
    of_hart = queues_with(hart, certificate)
    if len(of_hart) > 1:
        return f"hart {hart} is a party of queues {listed(of_hart)}: where it may wait for another, ask with --safety"
    if queues_of(certificate)[number].has_tags:
        return None  # its certificate doesn't say what moves
    (own, own_may), (other, other_may) = ((indices.called(number, index), indices.may_be_dropped(number, index)) for index in INDICES[stands.moves])
    if not states_of(certificate, hart)[1]:
        return f"no instruction of hart {hart} moves {own}" + f": if the compiler dropped the store, {VOLATILE}" * own_may
    if stands.finds.startswith("finds "):
        return None
    pcs = looks_of(number, hart, text, certificate)
    if not pcs:
        return f"hart {hart} never looks at {other}" + f": if the compiler dropped the load, {VOLATILE}" * other_may
    looks = f"looks at {other} only at pc {' and '.join(map(str, pcs))}"
    if other_may:
        return f"hart {hart} {looks}, and waits without a look: {VOLATILE}"
    return f"if hart {hart} waits there for an input, ask with --safety: it {looks}"


def of_several(hart, certificate):
    """A line for a party of several queues, which goes on in them together or has to wait for one."""
    return (f"hart {hart} is a party of queues {listed(queues_with(hart, certificate))}, and whether all harts wait for one another isn't decided: "
            "--safety asks for the protocol alone")


def of_stuck(answer, text, certificate, indices=Indices):
    """Lines for the parties of an answer that aren't shown to go on, where their code says why. `text` is the litmus text."""
    said = Said(answer)
    found = [of_party(each, text, certificate, indices) for each in said.all(Stands)]
    found += [of_several(each.hart, certificate) for each in said.all(Together)]
    yield from dict.fromkeys(line for line in found if line)
