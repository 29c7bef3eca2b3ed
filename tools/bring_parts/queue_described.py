"""Where the queues of a text lie: by the words of a call, in the source's names, or as drawn runs propose."""

import re

from bring_parts import Refused, memory, queue_hints, queue_types

AUTO = "auto"
KINDS = ("--queue", "--tagged")
PLACE = re.compile(r"(?<![^,])(head|tail|slots|tags|base)=([^,]*)")
TAG = re.compile(r"(?<![^,])tag=([^,+]*[^,+0-9][^,+]*)")
# a place that a proposal names
NAMED_PLACE = re.compile(r"\b(head|tail|slots|tags)=(\w+)")
PROPOSED = re.compile(r"(--queue|--tagged) (\S+)")
UNSAID = (", as --queue head=q.sent,tail=q.taken,slots=q.slot,size=8, or of one whose slots tell whose they are --tagged slots=q.slot,size=8 "
          f"(docs/queues.md, tools/certify --help); {queue_hints.OTHERS}")


class Unproposed(Refused):
    """That drawn runs propose no queue."""


def named_in(locations, place):
    """A place by a text's name for its word, if it is said by the source's name, after which words are called."""
    name, plus, rest = place.partition("+")
    shown = memory.word_name(name.rpartition("::")[2])
    # an array of structs begins with the first part of its first one
    found = shown if shown in locations else next((each for each in locations if each.startswith(f"{shown}_0_")), None)
    return place if name in locations or not found else found + plus + rest


def given_of(asked):
    """The queues of a call: each its option, and how it is described."""
    return [(kind, text) for kind, texts in zip(KINDS, (asked.queue, asked.tagged)) for text in texts or ()]


def described(asked, place, types):
    """The words that describe the queues, as tools/certify takes them."""
    for kind, text in given_of(asked):
        given = queue_types.without_blanks(text)
        given = queue_types.completed(kind, given, types) if types else given
        tag = TAG.search(given) if kind == "--tagged" else None
        given = PLACE.sub(lambda shape: f"{shape[1]}={place(shape[2])}", given)
        if tag:
            given = given.replace(tag[0], tag_at(place(tag[1]), keys_of(given)))
        yield from (kind, given)


def keys_of(given):
    return dict(part.partition("=")[::2] for part in given.split(","))


def tag_at(at, given):
    """A named tag, of which the place is known, as tools/certify takes it: by how many bytes past its slot, or the first element with a tag, it lies."""
    begin, width = given.get("tags", given.get("slots", "")), given.get("width", "4")
    if not (at.isdigit() and begin.isdigit() and width.isdigit()):
        return f"tag={at}"
    if "tags" not in given and not 0 <= int(at) - int(begin) < int(width):
        return f"tags={at},tag=0"
    return f"tag={int(at) - int(begin)}"


def in_source(said, test, types):
    """What drawn runs proposed, by the source's names of places where it has some."""
    def named(shape):
        key, name = shape.groups()
        at = test.locations.get(name)
        if at is None or types is None:
            return shape[0]
        array = next((array.name for array in types.arrays_at(str(at))), None) if key in ("slots", "tags") else None
        return f"{key}={array or types.name_at(at, 1) or name}"
    return NAMED_PLACE.sub(named, said)


def without_size(given, types):
    """A proposal without its size, where the types say that the array has more slots than the text has names, or drawn runs reached."""
    keys = keys_of(given)
    if not types or keys.keys() & {"modulus", "index"}:
        return given
    width = int(keys.get("width", "4"))
    is_more = any(array.step == width and array.count > int(keys["size"]) for array in types.arrays_at(keys["slots"]))
    return ",".join(f"{key}={value}" for key, value in keys.items() if not (is_more and key == "size"))


def is_proposed(asked):
    """Whether a call asks of the queues that drawn runs propose."""
    is_auto = AUTO in (asked.queue or ())
    if is_auto and (len(asked.queue) > 1 or asked.tagged):
        raise Refused(f"--queue {AUTO} stands alone: it takes the queues that drawn runs propose")
    return is_auto


def take_proposed(asked, said, test, types):
    """Puts the queues that drawn runs propose in the place of `auto`, and answers the line on them; or refuses a call that says no queue. `said` is what
    tools/certify says of them."""
    found, said = PROPOSED.findall(in_source(said, test, types)), in_source(said, test, types)
    if not is_proposed(asked):
        raise Refused(f"say where the queue lies{f'; {said}' if said else UNSAID}")
    if not found:
        raise Unproposed(f"say where the queue lies{UNSAID}")
    asked.queue = [without_size(given, types) for kind, given in found if kind == KINDS[0]]
    asked.tagged = [given for kind, given in found if kind == KINDS[1]]
    return said
