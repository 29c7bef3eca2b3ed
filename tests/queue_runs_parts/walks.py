"""A walk through a drawn run: the machine of tools/reference makes the entries, the protocol of protocol_trials judges each, and the
certificate is followed from one listed state to the next, with the numbers that its forms are about."""

import certificates
import machine
import progress
import queue_questions
import tags
from protocol_trials import ownership, telling
from protocol_trials.runs import RECEIVER, SENDER, THIRD, Access, Counts

MASK = machine.MASK
KINDS = {"load": "load", "store": "store", "amo": "exchange"}


class Protocol:
    """A protocol of one queue, of a run that something else makes: its parties, its counts, and the bytes that it speaks of."""

    def begin(self, queue, start, *places):
        self.counts = Counts((start, start), (start, start))
        self.parties = {queue.sender: SENDER, queue.receiver: RECEIVER}
        places += ((queue.slots, queue.size * queue.width),)
        self.low, self.high = min(a for a, _ in places), max(a + count for a, count in places)

    def share(self, hart):
        """The own count of a hart's party, and how many positions it owns."""
        p = self.parties.get(hart)
        return None if p is None else (self.counts.count[p], self.end(p, self.counts) - self.counts.count[p])

    def owns_load(self, hart, access):
        p = self.parties.get(hart)
        return p is None or all(self.may_be_read(p, x) for x in access.bytes() if self.is_slot_byte(x))


class Ownership(Protocol, ownership.Ownership):  # pylint: disable=super-init-not-called
    """The protocol of ownership."""

    def __init__(self, queue, start):
        self.queue = ownership.Queue(queue.index_width, queue.modulus, queue.size, queue.width, queue.capacity, queue.base, queue.scale,
                                     queue.offset, (queue.head, queue.tail), queue.slots)
        self.begin(queue, start, (queue.head, queue.index_width), (queue.tail, queue.index_width))

    def may_be_read(self, p, x):
        return self.owns_byte(p, self.counts, x)


class Telling(Protocol, telling.Telling):  # pylint: disable=super-init-not-called
    """The protocol of slots that tell."""

    def __init__(self, queue, start):
        # of bits the mask, and those of the rounds
        mask, *bits = queue.codec if isinstance(queue.codec, tuple) else (0,)
        self.queue = telling.Slots(queue.size, queue.width, queue.tag_offset, queue.tag_width, 2**32 if queue.codec == tags.NUMBER else 0, queue.slots,
                                   None if tags.are_slots(queue) else (queue.tags, queue.tag_stride), mask, tuple(zip(bits[::2], bits[1::2])))
        self.begin(queue, start, (queue.tags, queue.size * queue.tag_stride))

    def may_be_read(self, p, x):
        return self.is_tag_byte(self.first_position(x, 0), x) or self.owns_rest(p, self.counts, x)


# ---- certificates as functions


def written(form):
    return " + ".join([str(form.constant), *(f"{m} * n[{j}]" for j, m in enumerate(form.factors) if m)])


def function(names, source, **known):
    return eval(f"lambda {names}: {source}", known)  # pylint: disable=eval-used


def ends_alike(bits, number, count):
    """Whether a number of this many bits ends in as many zeros as a count, as far as these bits go."""
    return number < 1 << bits and all((number % (1 << k) == 0) == (count % (1 << k) == 0) for k in range(bits + 1))


class Followed:
    """A certificate: in which listed state of a hart a walk is, and with which numbers."""

    def __init__(self, accepted):
        self.certificate, self.opening = accepted.certificate, accepted.opening
        self.index_words = [each.queue.index_word for each in self.certificate.queues]
        self.parties = [{each.queue.sender, each.queue.receiver} for each in (*self.certificate.queues, *self.certificate.tagged)]
        self.inside, self.leaves = {}, {}

    def first(self, h):
        part = self.certificate.harts[h]
        return part.first, tuple(part.numbers)

    def is_inside(self, h, at, n, state):
        """Whether a listed state with these numbers is the hart's state."""
        if (h, at) not in self.inside:
            self.inside[h, at] = self.inside_of(h, at)
        return self.inside[h, at](n, *state)

    def inside_of(self, h, at):
        known, own = self.certificate.harts[h].states[at].known, self.certificate.harts[h].own
        terms = [f"pc == {known.pc}", f"len(n) == {len(known.ranges)}"]
        terms += [f"n[{j}] <= {most}" for j, most in enumerate(known.ranges) if most is not None]
        terms += [self.says(f"r[{j}]", v) for j, v in enumerate(known.registers) if v is not certificates.ANY]
        terms += [self.says(f"read({o.at}, {o.width})", v) for o, v in zip(own, known.words) if v is not certificates.ANY]
        # of a queue with tags a state says how many positions are owned at least
        terms += [f"s[{i}][0] == {written(share.own)} and s[{i}][1] {'==' if i < len(self.index_words) else '>='} {written(share.owned)}"
                  for i, share in enumerate(known.shares) if h in self.parties[i]]
        return function("n, pc, r, read, s", " and ".join(terms), word=self.index_words, signed=self.signed_word, ends_alike=ends_alike)

    @staticmethod
    def says(number, v):
        """That a number is what is known of it."""
        if isinstance(v, certificates.HasBits):
            return f"{number} & {v.mask} == {v.bits}"
        if isinstance(v, certificates.EndsAs):
            return f"ends_alike({v.bits}, {number}, {written(v.form)})"
        if isinstance(v, certificates.Linear):
            return f"{number} == ({written(v.form)}) & {MASK}"
        word = f"word[{v.queue}]({written(v.form)})"
        return f"{number} == " + (f"signed({v.queue}, {word})" if isinstance(v, certificates.SignedFor) else word)

    def signed_word(self, i, word):
        """What a signed load leaves of a word of queue i's index."""
        return certificates.signed_word(self.certificate.queues[i].queue.index_width, word)

    def after(self, h, at, n, state):
        """The listed state that follows, with its numbers, where the hart is in this state after one instruction; or None."""
        cases = self.certificate.harts[h].states[at].cases
        while isinstance(cases, certificates.Split):
            if n[cases.variable] <= cases.limit:
                cases = cases.low
            else:
                j = cases.variable
                n, cases = (*n[:j], n[j] - cases.limit - 1, *n[j + 1:]), cases.high
        if (h, at) not in self.leaves:
            self.leaves[h, at] = dict(self.arrows(h, at))
        for pc, new, to, numbers in self.leaves[h, at][id(cases)]:
            if pc == state[0]:
                following = numbers((new((0, *n), *state), *n))
                if self.is_inside(h, to, following, state):
                    return to, following
        return None

    def arrows(self, h, at):
        """For each leaf, and each state that follows it: its pc, what finds the new variable, which state is listed, and its numbers."""
        code = self.opening.harts[h][0]
        known, cases, *_ = self.certificate.harts[h].states[at]
        for k, leaf in certificates.leaves(known, cases):
            following = certificates.next_states(self.certificate, h, code, k, leaf.handed)
            yield id(leaf), [(each.pc, self.new_variable(each), arrow.to,
                              function("n", f"({''.join(written(form) + ', ' for form in arrow.forms)})")) for each, arrow in zip(following, leaf.arrows)]

    @staticmethod
    def new_variable(state):
        """What finds the number that the step brought: from how much is owned now, or from what is in a register."""
        if state.ranges[0] != 0:
            for i, share in enumerate(state.shares):
                if share.owned.factors[:1] == (1,):
                    return function("n, pc, r, read, s", f"s[{i}][1] - ({written(share.owned)})")
            for j, v in enumerate(state.registers):
                if isinstance(v, certificates.Linear) and v.form.factors[:1] not in ((), (0,)):
                    return function("n, pc, r, read, s", f"(r[{j}] - ({written(v.form)}) & {MASK}) // {v.form.factors[0]}")
        return function("n, pc, r, read, s", "0")


# ---- how soon a party goes on


class Row:
    """Of a party that is shown to go on, the instructions in a row by which it doesn't: how many there are now, the most that there were, and how many
    in a row never are."""

    def __init__(self, owned, most):
        self.owned, self.never, self.now, self.longest = owned, most, 0, 0

    def see(self, has_moved, has_looked, owned):
        """An instruction that moves the own count, or is a load of the other's index by which so many positions are known to be owned, or neither."""
        self.now = 0 if has_moved or has_looked and owned <= self.owned else self.now + 1
        self.longest = max(self.longest, self.now)


def rows_of(accepted):
    """The rows of each queue with indices, by the queue and the hart, where the certificate shows that it goes on."""
    for i, each in enumerate(accepted.certificate.queues if accepted.certificate.harts else ()):
        for h in (each.queue.sender, each.queue.receiver):
            found = progress.progress_of(accepted.opening, accepted.certificate, h, i)
            if isinstance(found, progress.GoesOn):
                yield (i, h), Row(found.owned, found.pace + found.sight + 2)


def lasting_harts(accepted):
    """The harts that run after each of their entries, where the certificate shows that they never stop and never end."""
    opening, certificate = accepted.opening, accepted.certificate
    return {h for h in range(len(certificate.harts)) if progress.first_end(opening, certificate, h) is None
            and queue_questions.Hart(opening, certificate, h).stop() is None}


# ---- walks


class Test:
    """What the machine takes: the code and the opening."""

    def __init__(self, test):
        self.codes = [[certificates.meaning(word) or ("illegal",) for word in hart.code] for hart in test.harts]
        self.registers = {(h, at): word for h, hart in enumerate(test.harts) for at, word in hart.registers.items()}
        self.words, self.inboxes = test.words, {}


class Walks:
    """Drawn runs of a text: `breaches`, `outside` and `idle` name the first of each, and `entries` and `taken` count entries and records. A
    certificate without harts isn't followed."""

    def __init__(self, accepted):
        self.accepted, self.test, self.followed = accepted, Test(accepted.test), Followed(accepted)
        self.harts = range(len(self.test.codes))
        self.events = [("a", h) for h in self.harts] + [("l", h) for h in self.harts]
        self.breaches, self.outside, self.idle, self.entries, self.taken = [], [], [], 0, 0
        self.rows, self.lasting = dict(rows_of(accepted)), lasting_harts(accepted)

    def walk(self, capacity, numbers):
        """One run, of the events of these numbers, up to the first thing that must not be."""
        made = machine.Machine(self.test, capacity)
        state, events, step = made.opening, self.events, made.step
        self.protocols = [*(Ownership(each.queue, each.start) for each in self.accepted.certificate.queues),
                          *(Telling(each.queue, each.start) for each in self.accepted.certificate.tagged)]
        self.shares = [[protocol.share(h) for protocol in self.protocols] for h in self.harts]
        follows = self.accepted.certificate.harts
        at = [self.followed.first(h) for h in self.harts] if follows else []
        for row in self.rows.values():
            row.now = 0
        for h, first in enumerate(at):
            if not self.followed.is_inside(h, *first, self.seen(h, state)):
                self.outside.append(f"hart {h} at its opening")
                return
        for event in map(events.__getitem__, numbers):
            outcome, is_entry, state = step(state, event)
            if not is_entry:
                continue
            self.entries += 1
            if event[0] == "l":
                continue
            h = event[1]
            kind, *parts = outcome.split()
            name = kind.rstrip("12")
            before, access = self.shares[h][:], None
            if name in KINDS:
                access = self.enter(h, KINDS[name], int(kind[len(name):] or 4), parts)
                if self.breaches:
                    return
            if name not in ("stopped", "ended"):
                self.count(h, before, access)
            if h in self.lasting and state[0][h][2] != machine.RUNNING:
                self.outside.append(f"hart {h}, which never stops and never ends, after {outcome}")
                return
            if not follows or name in ("stopped", "ended"):
                continue
            following = self.followed.after(h, *at[h], self.seen(h, state))
            if following is None:
                self.outside.append(f"hart {h} after {outcome}, from state {at[h][0]}")
                return
            at[h] = following
        self.taken += sum(protocol.counts.count[RECEIVER] for protocol in self.protocols)

    def count(self, h, before, access):
        """An instruction of a hart, in the rows of its queues."""
        for (i, party), row in self.rows.items():
            if party == h:
                queue, share = self.accepted.certificate.queues[i].queue, self.shares[h][i]
                others = queue.tail if h == queue.sender else queue.head
                row.see(share[0] != before[i][0], access is not None and access[:3] == ("load", others, queue.index_width), share[1])
                if row.now >= row.never and not self.idle:
                    self.idle.append(f"queue {i}, hart {h}: {row.now} instructions in a row by which it doesn't go on, of fewer than {row.never}")

    def seen(self, h, state):
        """What a listed state speaks of: the pc, the registers, words as the hart reads them, and its shares."""
        pc, registers, _, pending, _ = state[0][h]
        return pc, registers, lambda a, width: number_read(pending, state[1], a, width), self.shares[h]

    def enter(self, h, kind, width, parts):
        """An access, by each queue's protocol, which it returns."""
        address, value = int(parts[1]), int(parts[-1])
        access = Access(kind, address, width, int(parts[2]) if kind != "store" else 0, value if kind != "load" else 0)
        for i, protocol in enumerate(self.protocols):
            if address + width <= protocol.low or protocol.high <= address:
                continue
            party = protocol.parties.get(h, THIRD)
            if not protocol.keeps(party, access):
                self.breaches.append(f"queue {i}, hart {h}: {access}")
            if kind != "store" and (i, h) in self.accepted.reads and not protocol.owns_load(h, access):
                self.breaches.append(f"queue {i}, hart {h} loads what it doesn't own: {access}")
            protocol.counts = protocol.counts_next(party, access)
            self.shares[h][i] = protocol.share(h)
        return access


def number_read(pending, memory, a, width):
    if width < certificates.WORD or any(place < a + 4 and a < place + stored for place, stored, _ in pending):
        return machine.number(machine.byte_read(pending, memory, a + i) for i in range(width))
    return machine.word_at(memory, a)
