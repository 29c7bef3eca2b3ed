"""Texts whose certificates are accepted: what compilers make of queues in C, and the same with one instruction changed."""

import re
import subprocess
from pathlib import Path
from random import Random
from typing import NamedTuple

import certificates
import queues as reference
import tags
import words
from certify_parts import certificates as writer
from certify_parts import queues as descriptions
from certify_parts import ranks, sent, texts
from certify_parts import tags as described_tags
from certify_parts.clock import SECONDS, Clock

TOP = Path(__file__).resolve().parents[2]
REGISTERS = 32
NOP = 0x13
# how long the search of a changed text may take, in seconds of the processor
FEW_SECONDS = 1
SAID = re.compile(r"/\* .*?\n((?: +(?:queue|tagged): \S+\n)+)(?: +(?:read|asked): .*\n)? +answer: (.*?) \*/", re.S)
# a count that opens at so much less than 2^32, or at a few less, wraps soon
BEFORE_THE_WRAP = 4


class Source(NamedTuple):
    """A queue in C: its text, of each queue its kind and where its parts lie, and which answer it must get."""

    name: str
    text: str
    queues: tuple
    answer: str

    def is_kept(self):
        """Whether the protocol is kept, if nothing else is."""
        return self.answer.startswith(("covered", "kept", "reads"))


class Accepted(NamedTuple):
    """A text with a certificate that is accepted, and of which queues and harts the loads are accepted too."""

    test: texts.Test
    opening: certificates.Opening
    certificate: certificates.QueueCertificate
    reads: frozenset


def source_of(name, text):
    queues, answer = SAID.match(text).groups()
    return Source(name, text, tuple(re.findall(r"(queue|tagged): (\S+)", queues)), answer)


def names_tag(source):
    """Whether a tag is told by the source's name, of which only its types say where it lies."""
    return any(re.search(r"\btag=[^,+\d]", words) for _, words in source.queues)


def variants(source):
    """The source itself, with other numbers of slots, and with counts that open shortly before they wrap."""
    yield source
    (kind, words_of_queue), *more = source.queues
    # numbers in slots are as many as these
    if re.search(r"#define SLOTS \d+\n", source.text) and not more and "base" not in words_of_queue and "tells=number" not in words_of_queue:
        size = int(re.search(r"#define SLOTS (\d+)\n", source.text)[1])
        for other in {2, 8} - {size}:
            yield source._replace(text=re.sub(r"#define SLOTS \d+\n", f"#define SLOTS {other}\n", source.text),
                                  queues=((kind, re.sub(r"\bsize=\d+", f"size={other}", words_of_queue)),))


def made(source, compiler, flag, program, folder):
    """The test that a compiler makes of a source, or None where from-c refuses it."""
    file, text = Path(folder, "queue.c"), Path(folder, "queue.litmus")
    file.write_text(source.text)
    ran = subprocess.run([TOP / "tools/from-c", file, "--compiler", compiler, f"--flag={flag}", "-o", text], stdin=subprocess.DEVNULL,
                         capture_output=True, text=True, check=False)
    return None if ran.returncode else texts.read(program, text)


def before_the_wrap(test, words_of_queues):
    """The test and its queues where counts in words open shortly before they wrap, or None if the queues count otherwise."""
    found, described = dict(test.words), []
    for kind, text in words_of_queues:
        if kind == "tagged" or re.search(r"index=wrapping|bytes=|scale=|offset=", text):
            return None
        given = dict(part.split("=") for part in text.split(","))
        size = int(given["size"])
        start = (2**32 - BEFORE_THE_WRAP) // size * size
        for name in ("head", "tail"):
            found[place_of(test, given[name])] = start
        described.append((kind, f"{text},offset={start}"))
    return test._replace(words=found), tuple(described)


def place_of(test, word):
    name, _, further = word.partition("+")
    if name not in test.places:  # as the source calls it
        shown = re.sub(r"\W+", "_", name)
        name = next((each for each in test.places if each == shown or each.startswith(f"{shown}_0_")), name)
    return int(word) if word.isdigit() else test.places[name] + int(further or 0)


def described(test, kind, text):
    given = dict(part.split("=") for part in text.split(","))
    if kind == "tagged":
        return described_tags.described({name: place_of(test, given.pop(name)) for name in ("slots", "tags") if name in given}, given, test)
    if "base" in given:
        given["base"] = str(place_of(test, given["base"]))
    return descriptions.described({name: place_of(test, given.pop(name)) for name in ("head", "tail", "slots")}, given)


def opening_of(test):
    """What the check asks of a text."""
    numbers = [0] * (max(test.words, default=-4) // 4 + 1)
    for place, word in test.words.items():
        numbers[place // 4] = word
    return certificates.Opening(tuple((tuple(hart.code), tuple(hart.registers.get(at, 0) for at in range(REGISTERS))) for hart in test.harts),
                                tuple(numbers))


def accepted(test, words_of_queues, is_quick=False):
    """The text with a certificate that the search finds and the check accepts, or None."""
    queues = [described(test, *each) for each in words_of_queues]
    found = searched(test, queues, is_quick)
    if any(hart.refused for hart in found):
        return None
    return checked(test, reference.read(ranks.ranked(writer.text(queues, found), opening_of(test))))


def searched(test, queues, is_quick):
    return sent.found_of(test, queues, Clock(FEW_SECONDS if is_quick else SECONDS), (None, None))


def unjudged(test, words_of_queues):
    """The text with its queues alone, of which nothing is shown."""
    queues = [described(test, *each) for each in words_of_queues]
    indices = tuple(certificates.OpenedQueue(certificates.Queue(*queue[:13]), queue.start) for queue in queues if not queue.has_tags)
    tagged = tuple(tags.OpenedTagged(tags.TaggedQueue(*queue[:10]), queue.start) for queue in queues if queue.has_tags)
    return Accepted(test, opening_of(test), certificates.QueueCertificate(indices, tagged, ()), frozenset())


def checked(test, certificate):
    opening = opening_of(test)
    if certificates.first_flaw(opening, certificate):
        return None
    asked = [(certificates.accepts_loads, i, each) for i, each in enumerate(certificate.queues)]
    asked += [(tags.accepts_rest, t, each) for t, each in enumerate(certificate.tagged)]
    return Accepted(test, opening, certificate, frozenset(
        (at, h) for at, (accepts, i, each) in enumerate(asked) for h in (each.queue.sender, each.queue.receiver) if accepts(opening, certificate, i, h)))


def mutants(test, seed):
    """Texts with one instruction of one hart changed by chance, without an end."""
    draw = Random(seed)
    places = [(h, at) for h, hart in enumerate(test.harts) for at in range(len(hart.code))]
    while True:
        h, at = draw.choice(places)
        old = test.harts[h].code[at]
        new = NOP if draw.random() < 0.15 else old ^ 1 << draw.randrange(7, 32)
        if new != old and words.decoded(new):
            code = test.harts[h].code
            changed = test.harts[h]._replace(code=[*code[:at], new, *code[at + 1:]])
            yield test._replace(harts=[*test.harts[:h], changed, *test.harts[h + 1:]])
