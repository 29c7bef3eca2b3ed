"""What `ztso queue` and tools/certify print, as values: their lines are read here and nowhere else. docs/queue-answers.md has each."""

import re
from dataclasses import dataclass, fields

from bring_parts.queue_types import ranges_in

SCHEDULE = "ztso-schedule 1"


@dataclass(frozen=True)
class Named:
    """The instruction that a first line names, and the queue of which its load isn't shown to be."""
    hart: int
    pc: int
    queue: int


@dataclass(frozen=True)
class Stored:
    """The store that breaks a queue: what it stored where, and what its hart owned before: the first and the last position, None of both where it owned
    none, or is no party."""
    queue: int
    value: int
    width: int
    at: int
    owned: str
    first: int
    last: int

    @property
    def is_of_party(self):
        return self.owned != "is neither party"


@dataclass(frozen=True)
class Next:
    """The first position that the hart of such a store has not handed over yet, and its slot."""
    queue: int
    position: int
    slot: int


@dataclass(frozen=True)
class Before:
    """What that hart stored last before, to its index or to a tag."""
    queue: int
    value: int
    where: str
    pc: int


@dataclass(frozen=True)
class Looked:
    """What it loaded last of the other party's index, or of its next slot's tag."""
    queue: int
    where: str
    pc: int
    value: int


@dataclass(frozen=True)
class NeverLooked:
    queue: int
    where: str


@dataclass(frozen=True)
class Loaded:
    """The load that finds another byte than was sent."""
    queue: int
    value: int
    width: int
    at: int
    position: int
    byte: int
    sent: int


@dataclass(frozen=True)
class HandedBackAt:
    """That its position had been handed back before that load."""
    queue: int
    pc: int


@dataclass(frozen=True)
class NoneLost:
    queue: int
    runs: int
    length: int


@dataclass(frozen=True)
class Drawn:
    queue: int
    runs: int
    length: int
    published: int
    taken: int


@dataclass(frozen=True)
class GoesOn:
    """That a party moves its index, or finds that it has to wait, within a number of its instructions."""
    queue: int
    hart: int
    moves: str
    finds: str
    within: int


@dataclass(frozen=True)
class Stands:
    """That a party isn't shown to do so, or not shown to look whether it may."""
    queue: int
    hart: int
    moves: str
    finds: str
    pc: int

    def what(self):
        return f"{self.moves}, or {self.finds}"


@dataclass(frozen=True)
class Waits:
    queue: int
    hart: int
    slots: int
    other: int
    records: int
    capacity: int


@dataclass(frozen=True)
class Together:
    """That a party of several queues goes on in one of them."""
    queue: int
    hart: int


@dataclass(frozen=True)
class Records:
    """The bytes of each record that are shown to be written, or read, or read at most once."""
    queue: int
    bytes: str
    use: str


@dataclass(frozen=True)
class RecordsNotShown:
    """The bytes of each record of which not all is shown that is asked, with the first of them of which it isn't, and the instruction."""
    queue: int
    bytes: str
    use: str
    byte: int
    hart: int
    pc: int


@dataclass(frozen=True)
class NoBytes:
    queue: int


@dataclass(frozen=True)
class HartNotShown:
    """What isn't shown of a hart, and the instruction."""
    hart: int
    what: str
    pc: int


class OfShares:
    """What is said of the bytes that harts share."""


@dataclass(frozen=True)
class Shares(OfShares):
    """These at most, or None of them."""
    bytes: str


@dataclass(frozen=True)
class SharesNotShown(OfShares):
    """That it isn't shown which they are, and the first access that may go anywhere."""
    hart: int
    pc: int


@dataclass(frozen=True)
class Likely:
    why: str


@dataclass(frozen=True)
class Unused:
    """That no instruction of a party uses the slots of a queue, and how it might."""
    hart: int
    use: str
    queue: int


@dataclass(frozen=True)
class Uncovered:
    """A hart of which tools/certify found nothing: where its search ended, or None, and why."""
    hart: int
    pc: int
    why: str


PLACE = r"pc (?P<pc>\d+), .*"
# the forms of lines, each with what it says
FORMS = [(kind, re.compile(form)) for kind, form in (
    (Stored, r"queue (?P<queue>\d+): it stored (?P<value>\d+) to the (?P<width>\d+) bytes at (?P<at>\d+), and "
             r"(?P<owned>owned no position|owned positions (?P<first>\d+) to (?P<last>\d+)|is neither party)"),
    (Loaded, r"queue (?P<queue>\d+): it loaded (?P<value>\d+) from the (?P<width>\d+) bytes at (?P<at>\d+), of position (?P<position>\d+), "
             r"whose byte at (?P<byte>\d+) was sent as (?P<sent>\d+)"),
    (Next, r"queue (?P<queue>\d+): its next position is (?P<position>\d+), in slot (?P<slot>\d+)"),
    (Before, r"queue (?P<queue>\d+): before, it stored (?P<value>\d+) to (?P<where>its head|its tail|a tag), at pc (?P<pc>\d+)"),
    (Looked, r"queue (?P<queue>\d+): it last loaded (?P<where>its tail|its head|that slot's tag) at pc (?P<pc>\d+), and got (?P<value>\d+)"),
    (NeverLooked, r"queue (?P<queue>\d+): it never loaded (?P<where>.*)"),
    (HandedBackAt, r"queue (?P<queue>\d+): handed back at pc (?P<pc>\d+)"),
    (NoneLost, r"queue (?P<queue>\d+): no record is lost (?:after such a store )?in (?P<runs>\d+) drawn runs of (?P<length>\d+) events"),
    (Drawn, r"queue (?P<queue>\d+): kept in (?P<runs>\d+) drawn runs of (?P<length>\d+) events, in which (?P<published>\d+) positions were published "
            r"and (?P<taken>\d+) taken"),
    (GoesOn, r"queue (?P<queue>\d+): hart (?P<hart>\d+) (?P<moves>publishes|takes), or looks and finds (?P<finds>.*), within (?P<within>\d+) of its "
             r"instructions, whatever .*"),
    (Stands, rf"queue (?P<queue>\d+): not shown that hart (?P<hart>\d+) (?P<moves>publishes|takes), or (?P<finds>.*?): {PLACE}"),
    (Waits, r"queue (?P<queue>\d+): not shown that more is published or taken: hart (?P<hart>\d+) may wait for (?P<slots>\d+) free slots and hart "
            r"(?P<other>\d+) for (?P<records>\d+) records, of (?P<capacity>\d+)"),
    (Together, r"queue (?P<queue>\d+): hart (?P<hart>\d+) moves on in this or another of its queues, .*"),
    (Records, r"queue (?P<queue>\d+): bytes? (?P<bytes>.*) of each record (?:are|is) (?P<use>written after|read before|read at most once)[ ,].*"),
    (RecordsNotShown, r"queue (?P<queue>\d+): not shown that bytes? (?P<bytes>.*) of each record (?:are|is) (?P<use>written|read|read at most once)(?:, in order)?: byte (?P<byte>\d+), "
                      rf"hart (?P<hart>\d+), {PLACE}"),
    (NoBytes, r"queue (?P<queue>\d+): its records have none of these bytes"),
    (HartNotShown, rf"hart (?P<hart>\d+): not shown (?P<what>that it is never stopped|which bytes it writes): {PLACE}"),
    (Shares, r"the harts share (?:nothing|bytes? (?P<bytes>.*) of memory only)"),
    (SharesNotShown, rf"not shown which bytes the harts share: hart (?P<hart>\d+), {PLACE}"),
    (Likely, r"likely: (?P<why>.*)"),
    (Unused, r"not shown: no instruction of hart (?P<hart>\d+) (?P<use>loads from|stores to) a slot of queue (?P<queue>\d+)"),
    (Uncovered, r"hart (?P<hart>\d+) is not covered: (?:at pc (?P<pc>\d+), .*?: )?(?P<why>.*)"))]
FIRST = re.compile(r"[^:]*: hart (?P<hart>\d+) at pc (?P<pc>\d+), .*?(?:, of queue (?P<queue>\d+))?")
TEXTS = ("owned", "where", "what", "moves", "finds", "bytes", "use", "why")


def value_of(kind, shape):
    """The value that a line of this form says."""
    said = shape.groupdict()
    return kind(**{each.name: said[each.name] if said[each.name] is None or each.name in TEXTS else int(said[each.name]) for each in fields(kind)})


def values_of(lines):
    """The values that lines say; of each line the first form that it has."""
    for line in lines:
        found = next(((kind, shape) for kind, form in FORMS if (shape := form.fullmatch(line))), None)
        if found:
            yield value_of(*found)


class Said:
    """An answer of `ztso queue`: its first line, which is the verdict, the instruction that this names, or None, what its other lines say, and the
    schedule, or None."""

    def __init__(self, answer):
        front, mark, events = answer.partition(SCHEDULE)
        self.first, *rest = front.splitlines() or [""]
        self.values, self.schedule = [*values_of([self.first, *rest])], mark + events or None
        shape = FIRST.fullmatch(self.first)
        self.named = value_of(Named, shape) if shape else None

    def all(self, kind):
        return [value for value in self.values if isinstance(value, kind)]

    def one(self, kind):
        return next(iter(self.all(kind)), None)

    def shared(self):
        """The ranges that have all bytes which harts share, or None where these aren't shown."""
        shares = self.one(Shares)
        return shares and ranges_in(shares.bytes or "")
