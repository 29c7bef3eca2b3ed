"""What a certificate shows of a litmus text's queues, or drawn runs where it shows nothing, in lines (docs/queue-answers.md): the command `queue`."""

from itertools import chain

import certificate_lines
import certificates
import ownership
import programs
import progress
import queue_questions
import schedules
import sent
import tags
import words

# what stands before the number and the form of a value that is no form
MARKED = {"@": certificates.IndexFor, "~": certificates.SignedFor, "^": certificates.EndsAs}
KEPT, READS_NOT_SHOWN, NOT_SHOWN, BROKEN, ASKED_NOT_SHOWN, PROGRESS_NOT_SHOWN, OTHER_PROTOCOL = 0, 6, 7, 8, 9, 10, 11
# of a run that breaks the protocol, by whether a record is lost, too
BREAKS = {True: ("broken", BROKEN), False: ("does not keep the protocol described", OTHER_PROTOCOL)}
REGISTERS = 32
# of how many queues a hart may be a party for a line about all of them together
MOST_QUEUES = 6
EVERY_RUN = "promised: in every legal run, of any length and schedule, with store buffers of any size, the"
PROMISE_END = ", so positions arrive in order, each once, with all that was written before"
READS = "not promised: that what is loaded from a slot is a record that the hart owns"
# what isn't promised of records, by whether bytes of them are shown to be read, and to be written
UNREAD = {False: "that a record's bytes are read", True: "that other bytes of a record are read"}
FRESHLY = {False: "that a record was freshly or wholly written", True: "that other bytes of a record are freshly written"}
REST = "what the code does with it, what memory outside of the queue holds"
# what a queue's party does to bytes of a record, when, and whether it is the sender
RECORDS_OF = {"written": ("written", " after the record before in its slot was published", True), "read": ("read", " before its slot is handed back", False),
              "once": ("read at most once, in order", "", False)}
PROGRESS = {False: "not promised: that anything is ever sent or received", True: "not promised: that a hart is ever run, or doesn't end or stop, or that a store ever lands"}
# of a sender and of a receiver: how it goes on, what it finds, and what isn't shown
MOVES = {True: ("publishes", "no slot free", ("slots free", "slot free"), "looks for a free slot"),
         False: ("takes", "no record", ("records", "record"), "looks for a record")}
STORES = "likely: it may store to a slot that the hart doesn't own, to another hart's words, or another count to its index"
LIKELY = {0x23: STORES, 0x2F: STORES,
          0x03: "likely: it may load a part of the other party's index, or leads to a state that isn't listed",
          0x67: "likely: where it jumps isn't known, or it leads to a state that isn't listed"}
FIT = "another protocol may fit: that of a queue that overwrites, that has several senders or receivers, or"
# of a queue with tags, or with indices
OF = {True: "of two indices and slots", False: "whose slots tell whose they are"}
INDICES = {False: "its head", True: "its tail"}
OTHER = "likely: it leads to a state that isn't listed, as where the certificate is of another text"


def opening_of(test):
    """Where a test opens, as certificates.py takes it."""
    harts = [(programs.read("\n".join(text for _, text, _, _ in cells)), [test.registers.get((hart, number), 0) for number in range(32)])
             for hart, cells in enumerate(test.columns)]
    last = max(test.words, default=-4)
    return certificates.Opening(tuple(harts), tuple(test.words.get(place, 0) for place in range(0, last + 4, 4)))


def form_of(found):
    constant, factors = found
    return certificates.Form(constant, tuple(factors))


def value_of(found):
    """A form; after a mark the word of a queue that stands for one, what a signed load leaves of it, or so many bits that end as one does; or the bits of
    a word under a mask."""
    if len(found) == 2:
        return certificates.Linear(form_of(found))
    mark, number, *form = found
    if mark == "&":
        return certificates.HasBits(number, *form)
    return MARKED[mark](number, form_of(form))


def codec_of(name, *numbers):
    return {"bits": tags.Bits, "phases": tags.Phases}[name](*numbers) if numbers else name


def cases_of(found):
    """The tree of a split and its two cases, or of a leaf and its arrows."""
    if len(found) == 3:
        (variable, most), low, high = found
        return certificates.Split(variable, most, cases_of(low), cases_of(high))
    handed, arrows = found
    return certificates.Leaf(form_of(handed), tuple(certificates.Arrow(to, tuple(map(form_of, forms))) for to, forms in arrows))


def filled_of(found):
    """For each queue, and each position from the own count on, the fields that are right."""
    ends = {}
    for queue, further in found:
        ends[queue] = max(further + 1, ends.get(queue, 0))
    return tuple(tuple(tuple(found.get((queue, further), ())) for further in range(ends.get(queue, 0))) for queue in range(max(ends, default=-1) + 1))


def read(text):
    """The certificate of a text, as certificates.py takes it."""
    queues, tagged, harts = certificate_lines.read(text)

    def state(own, pc, most, known, filled, ranks, cases):
        def listed(name, number, made, other):
            return tuple(made(known[name, at]) if (name, at) in known else other for at in range(number))

        shares = listed("share", len(queues) + len(tagged), lambda forms: certificates.Share(*map(form_of, forms)), certificates.NO_SHARE)
        registers = listed("reg", REGISTERS, value_of, certificates.ANY)
        return certificates.ListedState(
            certificates.KnownState(pc, tuple(most), registers, listed("word", len(own), value_of, certificates.ANY), shares), cases_of(cases),
            filled_of(filled), tuple(map(form_of, ranks)))

    return certificates.QueueCertificate(
        tuple(certificates.OpenedQueue(certificates.Queue(*numbers[:13]), numbers[13], tuple(sent.Field(*field) for field in fields))
              for numbers, fields in queues),
        tuple(tags.OpenedTagged(tags.TaggedQueue(*found[:9], codec_of(*found[9])), found[10]) for found in tagged),
        tuple(certificates.HartPart(tuple(certificates.OwnWord(*place) for place in own), first, tuple(numbers), tuple(state(own, *each) for each in states),
                                    tuple(certificates.Goal(*goal) for goal in goals), tuple(map(tuple, lacking)))
              for own, (first, numbers), states, goals, lacking in harts))


# ---- what isn't shown, in lines

def queue_fault(opening, opened):
    """What is wrong with a queue that isn't accepted."""
    q, start, fields = opened
    width, slots = q.index_width, q.size * q.width
    opens = [certificates.number_seen(opening, place, width) == q.index_word(start) if q.modulus and width <= 4 else False for place in (q.head, q.tail)]
    holds = (
        (q.sender != q.receiver, "one hart as its sender and its receiver"),
        (certificates.are_apart(q.head, width, q.tail, width), "a head and a tail that overlap"),
        (all(certificates.are_apart(place, width, q.slots, slots) for place in (q.head, q.tail)), "an index that overlaps its slots"),
        (q.size >= 1, "no slot"),
        (q.capacity <= q.size, "fewer slots than may be in use"),
        (q.modulus >= 1 and q.scale >= 1, "a modulus or a scale of 0"),
        (width >= 1, "indices without a byte"),
        (width <= 4 and q.base + q.scale * (q.modulus - 1) < 256 ** width,
         "words that don't fit the bytes of its indices, which are at most 4"),
        (q.capacity < q.modulus, "indices that don't tell all slots in use from none"),
        (opens[0], "a head that opens as another word than that of its count"),
        (opens[1], "a tail that opens as another word than that of its count"),
        (all(sent.is_field(q, field) for field in fields), "a field that reaches past its slot, or a number that doesn't fit its bytes"),
    )
    return next(fault for is_so, fault in holds if not is_so)


def form_text(form):
    """A number, and multiples of variables, with `+` in between: of each that is 0 only what comes last."""
    parts = [str(form.constant)] if form.constant or not form.factors else []
    last = len(form.factors) - 1
    return "+".join([*parts, *(f"{times}*{at}" for at, times in enumerate(form.factors) if times or at == last)])


def value_text(value):
    if isinstance(value, certificates.Linear):
        return form_text(value.form)
    if isinstance(value, certificates.HasBits):
        return f"&{value.mask}:{value.bits}"
    mark = next(mark for mark, kind in MARKED.items() if isinstance(value, kind))
    return f"{mark}{value[0]}:{form_text(value.form)}"


def known_lines(listed):
    """A state's lines, as a certificate has them, without its pc and its cases."""
    known = listed.known
    if known.ranges:
        yield " ".join(["most", *("-" if most is None else str(most) for most in known.ranges)])
    for name, values in (("reg", known.registers), ("word", known.words)):
        for at, value in enumerate(values):
            if value is not certificates.ANY:
                yield f"{name} {at} {value_text(value)}"
    for at, share in enumerate(known.shares):
        yield f"share {at} {form_text(share.own)} {form_text(share.owned)}"
    for queue, slots in enumerate(listed.filled):
        for further, fields in enumerate(slots):
            if fields:
                yield " ".join(map(str, ("filled", queue, further, *fields)))


def tag_text(queue):
    """Where in its slot, or in its element, a tag lies, and how it tells."""
    if isinstance(queue.codec, tags.Phases):
        tells = "free where its bits under {} are {} and full where they are {}, in odd rounds {} and {}".format(*queue.codec)
    elif isinstance(queue.codec, tags.Bits):
        tells = "free where its bits under {} are {} and full where they are {}".format(*queue.codec)
    else:
        tells = {tags.ZERO: "0 where it is free and any other number where it is full",
                 tags.NUMBER: f"k where it is free for position k and k + 1 where it is full of it, modulo {certificates.M32}"}[queue.codec]
    of_each = "slot" if tags.are_slots(queue) else f"element of {queue.tag_stride} bytes from {queue.tags} on"
    return f"{'byte' if queue.tag_width == 1 else f'{queue.tag_width} bytes'} at {queue.tag_offset} of each {of_each}, {tells}"


class Judge:
    def __init__(self, test, text):
        self.test, self.opening, self.listed = test, opening_of(test), read(text)
        # each queue by its number: those with tags after those with indices
        self.opened, self.with_indices = (*self.listed.queues, *self.listed.tagged), len(self.listed.queues)
        # of harts whether they run in every run, as far as that was asked
        self.lasting = {}

    # ---- what isn't shown

    def flaw(self):
        """The first thing that isn't accepted, as its lines; or None."""
        found = certificates.first_flaw(self.opening, self.listed)
        if found is None:
            return None
        self.may_draw = found.kind not in ("queue", "tagged")
        if found.kind == "queue":
            return self.queue_flaw(found.at, queue_fault(self.opening, self.listed.queues[found.at]))
        if found.kind == "tagged":
            return self.queue_flaw(self.with_indices + found.at, tags.tagged_fault(self.listed.tagged[found.at].queue))
        if found.kind == "opening" and not (found.at < len(self.listed.harts) and self.listed.harts[found.at].states):
            return [f"not shown: the certificate has no state of hart {found.at}",
                    "likely: the search for its states found none, which says nothing of the queue"]
        if found.kind == "opening":
            return [f"not shown: hart {found.at} opens in another state than the certificate says",
                    "likely: the certificate is of another text, or of another opening of this one"]
        word = self.word(found.at, self.pc(found.at, found.state))
        return [f"not shown: {self.state_place(found.at, found.state)}",
                *(f"known: {line}" for line in known_lines(self.listed.harts[found.at].states[found.state])),
                LIKELY.get(None if word is None else word & 127, OTHER)]

    @staticmethod
    def queue_flaw(index, fault):
        return [f"not shown: queue {index} has {fault}", "likely: the queue isn't described as the text has it"]

    def has_tags(self, index):
        return index >= self.with_indices

    def accesses(self, index):
        if self.has_tags(index):
            return tags.tagged_accesses(self.opening, self.listed, index - self.with_indices)
        return certificates.slot_accesses(self.opening, self.listed, index)

    def first_unowned(self, index, hart):
        if self.has_tags(index):
            return tags.first_unowned_rest(self.opening, self.listed, index - self.with_indices, hart)
        return certificates.first_unowned(self.opening, self.listed, index, hart)

    def unused(self):
        """Why the certificate says nothing of the text, or None."""
        if not self.opened:
            return "not shown: the certificate has no queue"
        for index, (queue, *_) in enumerate(self.opened):
            if not queue.width:
                return f"not shown: queue {index} has slots without a byte"
            if not self.has_tags(index) and not queue.capacity:
                return f"not shown: queue {index} has no slot that may be in use"
            if max(queue.sender, queue.receiver) >= len(self.opening.harts):
                return f"not shown: queue {index} has a party that is no hart of the text"
            if not any(stores for hart, _, stores, _ in self.accesses(index) if hart == queue.sender):
                return f"not shown: no instruction of hart {queue.sender} stores to a slot of queue {index}"
            if not any(loads for hart, _, _, loads in self.accesses(index) if hart == queue.receiver):
                return f"not shown: no instruction of hart {queue.receiver} loads from a slot of queue {index}"
        return None

    def unread(self):
        """The first load of a slot that isn't shown to be of an owned one, as a line, and of which queue; or None."""
        for index, (queue, *_) in enumerate(self.opened):
            for hart in (queue.sender, queue.receiver):
                state = self.first_unowned(index, hart)
                if state is not None:
                    return f"kept, but reads not shown: {self.state_place(hart, state)}, of queue {index}", index
        return None

    # ---- lines

    def pc(self, hart, state):
        return self.listed.harts[hart].states[state].known.pc

    def word(self, hart, pc):
        code = self.opening.harts[hart][0]
        return code[pc // 4] if pc < 4 * len(code) else None

    def place(self, hart, pc):
        word = self.word(hart, pc)
        decoded = None if word is None else words.decoded(word)
        return f"hart {hart} at pc {pc}, {words.text(*decoded) if decoded else 'no instruction'}"

    def state_place(self, hart, state):
        return f"{self.place(hart, self.pc(hart, state))}, state {state}"

    def pc_place(self, hart, state):
        """The same after the hart."""
        return self.state_place(hart, state).removeprefix(f"hart {hart} at ")

    def form(self, index):
        queue, start = self.opened[index][:2]
        front = f"queue {index}:"
        yield f"{front} hart {queue.sender} sends and hart {queue.receiver} receives"
        if self.has_tags(index):
            yield f"{front} it has {queue.size} slots of {queue.width} bytes from {queue.slots} on"
            yield f"{front} its tag is the {tag_text(queue)}, and it opens at {start}"
            return
        yield f"{front} its head is the {queue.index_width} bytes at {queue.head}, its tail those at {queue.tail}"
        yield f"{front} it has {queue.size} slots of {queue.width} bytes from {queue.slots} on, of which {queue.capacity} may be in use"
        yield f"{front} count n is the word {queue.base} + {queue.scale} * ((n + {queue.offset}) mod {queue.modulus}), and it opens at {start}"

    def described(self):
        for index, opened in enumerate(self.opened):
            yield from self.form(index)
            for field in () if self.has_tags(index) else opened.fields:
                yield (f"queue {index}: the {field.width} bytes from {field.at} on of each record are {field.low} + {field.step} * j, "
                       f"with j from 0 to {field.count}")
            for hart, pc, stores, loads in self.accesses(index):
                if stores:
                    yield f"queue {index}: stored to by {self.place(hart, pc)}"
                if loads:
                    yield f"queue {index}: loaded from by {self.place(hart, pc)}"

    # ---- what is asked besides, in lines, each with whether it is shown

    def records(self, index, text, use):
        """The line about these bytes of a queue's records: whether its sender writes them, or its receiver reads them, or at most once."""
        queue, (done, since, sends) = self.opened[index].queue, RECORDS_OF[use]
        mask = queue_questions.bytes_named(text, queue.width)
        if not mask:
            return f"queue {index}: its records have none of these bytes", False
        # what publishes a record writes its tag, by which the receiver learns of it
        in_slots = self.has_tags(index) and tags.are_slots(queue)
        rest = queue_questions.without(mask, queue.tag_offset, queue.tag_offset + queue.tag_width - 1) if in_slots else mask
        if not rest:
            return f"queue {index}: its records have these bytes in their tags alone", True
        named, is_one = queue_questions.bytes_text(rest)
        shown = f"{named} of each record {'is' if is_one else 'are'} {done}"
        party = queue_questions.Party(self.opening, self.listed, index, sends)
        missing = party.again(rest) if use == "once" else party.missing(rest)
        if missing is None:
            return f"queue {index}: {shown}{since}", True
        state, byte = missing
        return f"queue {index}: not shown that {shown}: byte {byte}, hart {party.hart}, {self.pc_place(party.hart, state)}", False

    def protocol(self):
        """What is kept in every run."""
        if not self.listed.tagged:
            return f"{EVERY_RUN} protocol of ownership is kept"
        return f"{EVERY_RUN} protocol{'s of ownership and' if self.listed.queues else ''} of slots that tell {'are' if self.listed.queues else 'is'} kept"

    def runs_on(self, number):
        """Whether a hart runs in every run: None where it may be stopped, and False where it may end alone."""
        if number not in self.lasting:
            stop = queue_questions.Hart(self.opening, self.listed, number).stop()
            self.lasting[number] = None if stop is not None else progress.first_end(self.opening, self.listed, number) is None
        return self.lasting[number]

    def hart(self, number):
        """The lines about a hart."""
        hart = queue_questions.Hart(self.opening, self.listed, number)
        stop = hart.stop()
        yield (f"hart {number}: never stopped", True) if stop is None else (
            f"hart {number}: not shown that it is never stopped: {self.pc_place(number, stop)}", False)
        if self.runs_on(number):
            yield f"hart {number}: never ends", True
        for stores, does in ((True, "writes"), (False, "loads")):
            anywhere, touched = hart.anywhere(stores), hart.touched(stores)
            if anywhere is not None:
                yield f"hart {number}: not shown which bytes it {does}: {self.pc_place(number, anywhere)}", not stores
            else:
                yield f"hart {number}: {does} " + (f"{queue_questions.bytes_text(touched)[0]} of memory only" if touched else "nothing"), True

    def harts(self):
        """The lines about all harts."""
        numbers = range(len(self.opening.harts))
        yield from (line for number in numbers for line in self.hart(number))
        shared, place = queue_questions.shared([queue_questions.Hart(self.opening, self.listed, number) for number in numbers])
        if place:
            yield f"not shown which bytes the harts share: hart {place[0]}, {self.pc_place(*place)}", True
        else:
            yield f"the harts share {f'{queue_questions.bytes_text(shared)[0]} of memory only' if shared else 'nothing'}", True

    # ---- whether queues go on, in lines

    def party(self, index, sends, hart, other, found):
        """The lines of a party, by what is found of it."""
        front, (moves, none, few, looking) = f"queue {index}:", MOVES[sends]
        if isinstance(found, (progress.GoesOn, progress.Within)):
            owned, bound = (0, found.most + 1) if isinstance(found, progress.Within) else (found.owned, found.pace + found.sight + 2)
            finds = f"at most {owned} {few[owned == 1]}" if owned else none
            yield f"{front} hart {hart} {moves}, or looks and finds {finds}, within {bound} of its instructions, whatever hart {other} does"
            return
        missed = looking if isinstance(found, progress.NoLook) else f"finds {none}"
        if isinstance(found, progress.Unranked):
            yield f"{front} not shown that hart {hart} {moves}, or {missed}: the certificate has no ranks for it (tools/certify --rank finds them)"
            return
        yield f"{front} not shown that hart {hart} {moves}, or {missed}: {self.pc_place(hart, found.state)}"
        yield from (f"known: {line}" for line in known_lines(self.listed.harts[hart].states[found.state]))

    def together(self, index, hart):
        """The line of a party that goes on in all its queues with indices together, if it has several and that is shown; or None."""
        queues = progress.sides(self.listed, hart)
        found = progress.hart_progress_of(self.opening, self.listed, hart) if 1 < len(queues) <= MOST_QUEUES else None
        if not isinstance(found, progress.GoesOn):
            return None
        finds = {0: "that it has to wait for it", 1: "at most 1 slot free, or 1 record"}.get(
            found.owned, f"at most {found.owned} slots free, or {found.owned} records")
        return (f"queue {index}: hart {hart} moves on in this or another of its queues, or looks at one and finds {finds}, "
                f"within {found.pace + len(queues) * (found.sight + 1) + 1} of its instructions, whatever others do")

    def arriving(self, index):
        """The line of whether more arrives, of a queue whose parties go on, if neither may be stopped."""
        queue = self.opened[index].queue
        lasting = [self.runs_on(hart) for hart in (queue.sender, queue.receiver)]
        ended = "" if all(lasting) else ", or one of its harts has ended"
        return [] if None in lasting else [f"queue {index}: every run can go on until more is published or taken{ended}"]

    def going(self, index):
        """The lines of whether a queue goes on, and whether that is shown."""
        queue = self.opened[index].queue
        parties = ((True, queue.sender, queue.receiver), (False, queue.receiver, queue.sender))
        progress_of, number = (progress.told_progress_of, index - self.with_indices) if self.has_tags(index) else (progress.progress_of, index)
        found = [progress_of(self.opening, self.listed, hart, number) for _, hart, _ in parties]
        goes = [isinstance(each, (progress.GoesOn, progress.Within)) for each in found]
        together = [None if alone or self.has_tags(index) else self.together(index, hart) for alone, (_, hart, _) in zip(goes, parties)]
        lines = [line for party, each, among in zip(parties, found, together) for line in ([among] if among else self.party(index, *party, each))]
        if not all(goes):
            stands = f"queue {index}: not shown that more is published or taken: its harts may move on elsewhere, or wait for one another"
            return [*lines, *([stands] if all(alone or among for alone, among in zip(goes, together)) else [])], False
        if self.has_tags(index):
            stands = f"queue {index}: whenever no store to a tag is pending and both harts run on, more is published or taken"
            return [*lines, stands, *self.arriving(index)], True
        slots, records = (each.owned for each in found)
        if slots + records < queue.capacity:
            stands = f"queue {index}: whenever both indices have landed and both harts run on, more is published or taken"
            return [*lines, stands, *self.arriving(index)], True
        stands = f"hart {queue.sender} may wait for {slots + 1} free slots and hart {queue.receiver} for {records + 1} records, of {queue.capacity}"
        return [*lines, f"queue {index}: not shown that more is published or taken: {stands}"], False

    # ---- drawn runs

    @staticmethod
    def schedule(events, capacity):
        return [f"shown by this schedule, whose last event it is, with --buffer {capacity}:", *schedules.written(events).splitlines()]

    def losing(self, index, capacity, number, drawing):
        """The lines of what drawn runs lose of a queue."""
        queue, start, *_ = self.opened[index]
        runs = ownership.Runs(self.test, capacity, queue, start)
        lost = ownership.lost(runs, runs.loss, number, drawing)
        if not lost:
            return [f"queue {index}: no record is lost in {number} drawn runs of {drawing[1]} events"]
        return self.loss_lines(index, *lost, capacity)

    def loss_lines(self, index, events, loss, capacity):
        handed_back = [] if loss.handed_back is None else [f"queue {index}: handed back at pc {loss.handed_back}"]
        return [f"a record is lost: {self.place(loss.hart, loss.pc)}",
                f"queue {index}: it loaded {loss.value} from the {loss.width} bytes at {loss.address}, of position {loss.position}, "
                f"whose byte at {loss.byte} was sent as {loss.sent}", *handed_back, *self.schedule(events, capacity)]

    def before(self, index, breach):
        """The lines of what a party did before a breach."""
        if breach.before is None:
            return []
        queue, _, *_ = self.opened[index]
        (stored, looked), receives = breach.before, breach.hart == queue.receiver
        own, look = ("a tag", "that slot's tag") if self.has_tags(index) else (INDICES[receives], INDICES[not receives])
        lines = [f"queue {index}: its next position is {breach.owned[0]}, in slot {breach.owned[0] % queue.size}"]
        if stored:
            lines.append(f"queue {index}: before, it stored {stored[0]} to {own}, at pc {stored[1]}")
        found = f"it last loaded {look} at pc {looked[1]}, and got {looked[0]}" if looked else f"it never loaded {look}"
        return [*lines, f"queue {index}: {found}"]

    def broken(self, index, events, breach, capacity, number, drawing):
        """The lines of a run that breaks a queue's protocol, of which a schedule is the last, and the exit status."""
        queue, start, *_ = self.opened[index]
        runs = ownership.Runs(self.test, capacity, queue, start)
        lost = ownership.lost(runs, runs.loss_after, number, drawing) if breach.described else None
        if lost:
            breach, _ = runs.judged(lost[0])
            ending = self.loss_lines(index, *lost, capacity)
        else:
            unlost = f"queue {index}: no record is lost after such a store in {number} drawn runs of {drawing[1]} events"
            ending = [*([unlost] if breach.described else []), *self.schedule(events, capacity)]
        if breach.owned is None:
            owned = "and is neither party"
        elif breach.owned[0] < breach.owned[1]:
            owned = f"and owned positions {breach.owned[0]} to {breach.owned[1] - 1}"
        else:
            owned = "and owned no position"
        verdict, status = BREAKS[lost is not None]
        return [f"{verdict}: {self.place(breach.hart, breach.pc)}",
                f"queue {index}: it stored {breach.value} to the {breach.width} bytes at {breach.address}, {owned}",
                *self.before(index, breach), *self.form(index), f"{FIT} {OF[self.has_tags(index)]}", *ending], status

    def tried(self, flaw, capacity, number, drawing):
        """What drawn runs show where the certificate has this flaw."""
        lines = []
        for index, (queue, start, *_) in enumerate(self.opened):
            shown, moved = ownership.trial(ownership.Runs(self.test, capacity, queue, start), number, drawing)
            if shown:
                return self.broken(index, *shown, capacity, number, drawing)
            lines.append(f"queue {index}: kept in {number} drawn runs of {drawing[1]} events, in which {moved[0]} positions were published and"
                         f" {moved[1]} taken")
        return [*flaw, *lines, "nothing is claimed"], NOT_SHOWN

    def kept(self, losing, asked, harts, asks_progress):
        """The lines, and the exit status, where the protocol is kept: of the bytes of records that are asked about, by their uses in the order of
        RECORDS_OF, of the harts and of whether the queues go on, if they are. Where reads aren't shown, `losing` has the lines of what runs lose."""
        going = [self.going(index) for index in range(len(self.opened)) if asks_progress]
        goes = all(shown for _, shown in going)
        unread = self.unread()
        records = {use: [self.records(index, text, use) for index in range(len(self.opened)) if text is not None and not (unread and use == "once")]
                   for use, text in zip(RECORDS_OF, asked)}
        told = [*chain(*zip(*filter(None, records.values()))), *(self.harts() if harts else ())]
        lines = [*self.described(), *(line for each, _ in going for line in each), *(line for line, _ in told)]
        is_shown = {use: bool(found) and all(shown for _, shown in found) for use, found in records.items()}
        limits = [f"not promised: {UNREAD[is_shown['read']]}, {FRESHLY[is_shown['written']]}, {REST}", PROGRESS[asks_progress and goes]]
        if unread:
            return [unread[0], *lines, self.protocol(), READS, *limits, *losing(unread[1])], READS_NOT_SHOWN
        if not goes:
            first, status = "kept in every run, but not shown to go on", PROGRESS_NOT_SHOWN
        elif not all(shown for _, shown in told):
            first, status = "kept, but not all that was asked is shown", ASKED_NOT_SHOWN
        else:
            first, status = f"kept in every run{', and goes on while its harts run' if asks_progress else ''}", KEPT
        return [first, *lines, self.protocol() + PROMISE_END, *limits], status

    def answer(self, capacity, number, drawing, asked=(), harts=False, asks_progress=True):
        """The lines, and the exit status."""
        if flaw := self.flaw():
            return self.tried(flaw, capacity, number, drawing) if self.may_draw else ([*flaw, "nothing is claimed"], NOT_SHOWN)
        if unused := self.unused():
            return [unused, "nothing is claimed"], NOT_SHOWN
        return self.kept(lambda index: self.losing(index, capacity, number, drawing), asked, harts, asks_progress)
