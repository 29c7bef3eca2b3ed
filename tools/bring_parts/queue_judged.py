"""Asks of a text whether every run keeps the protocol of its queues: tools/certify looks for a certificate, `ztso queue` judges it, and runs that are drawn
longer may decide what neither does."""

import re
import subprocess
import sys
from dataclasses import dataclass, replace
from functools import partial
from itertools import chain, count
from pathlib import Path

from bring_parts import (TOOLS, Refused, c_lines, complain, making, plain, put, queue_asked, queue_broken, queue_data, queue_described, queue_fences,
                         queue_hints, queue_kept, queue_report, queue_types, queue_unproposed, queue_unshown, queue_words, text_of, texts)
from bring_parts.queue_case import BROKEN, FENCES, KEPT, NOT_ALL, NOT_SHOWN, OTHER, OWN_FAULT, READS, STUCK, WRONG, Case
from bring_parts.queue_places import Places
from bring_parts.queue_said import NoneLost, OfShares, Said, Uncovered, values_of
from bring_parts.queue_shared import Shared
from bring_parts.queue_short import MODEL, Line

from certify_parts.clock import PROGRESS
from queues import Judge

C, LITMUS, NONE = ".c", ".litmus", "none"
# options that `ztso queue` has by the same name: first those that name bytes of records, those first that tools/certify has too, and that types say
SEARCHED = ("written", "read")
BYTES = (*SEARCHED, "once")
PASSED = (*BYTES, "runs", "length", "seed", "draw", "buffer")
SCHEDULE_FILE, SHOWN_FILE, BUFFER = ".schedule", ".shown.schedule", 4
# a terminal is told of a search after this many seconds
QUIET = 4
# longer runs in which a lost record is looked for: of how many events, and how many
LONGER_LOSS = ("5000", "200")
# what a call asks with that wants what harts share alone
OF_SHARES = ("--harts", "--safety", "--runs", "1", "--length", "0")
# by the status what a person reads
SHORT = {KEPT: queue_kept.kept, FENCES: queue_kept.kept, READS: queue_broken.reads, NOT_SHOWN: queue_unshown.not_shown, BROKEN: queue_broken.broken,
         NOT_ALL: queue_kept.not_all, STUCK: queue_kept.stuck, OTHER: queue_broken.other}
NOT_ALL_SHOWN = "kept, but not all that was asked is shown"


class ToolFault(Refused):
    """A fault of tools/certify itself, which says nothing of the text."""
    status = OWN_FAULT


# ---- other programs

def waited(process, does):
    """What a process prints, on standard output and standard error. A terminal is told each second what it does, if that takes long."""
    told = ""
    for second in count(1):
        try:
            output, error = process.communicate(timeout=1 if does and sys.stderr.isatty() else None)
            break
        except subprocess.TimeoutExpired as more:
            steps = [line for line in (more.stderr or b"").decode().splitlines() if line.startswith(PROGRESS)]
            told = f"{steps[-1] if steps else does}: {second} s".ljust(len(told)) if second >= QUIET else ""
            print(f"\r{told}", end="", file=sys.stderr, flush=True)
    if told:
        print(f"\r{' ' * len(told)}\r", end="", file=sys.stderr, flush=True)
    return output, error


def ran(*words, does=None):
    """Its status, what it printed, and its last line on standard error."""
    with subprocess.Popen([str(word) for word in words], stdin=subprocess.DEVNULL, stdout=subprocess.PIPE, stderr=subprocess.PIPE, text=True) as process:
        try:
            output, error = waited(process, does)
        except BaseException:
            process.kill()
            raise
    return process.returncode, output, error.strip()


def options_of(values):
    """The words of the options that have a value."""
    return [word for name, value in values.items() if value is not None for word in (f"--{name}", value)]


@dataclass(frozen=True)
class Question:
    """What is asked: the call, the text and what the sources say of it, the bytes of records, by the option, and the program that judges."""
    asked: object
    folder: Path
    program: Path
    text: Path
    test: object
    place: object
    types: object

    @staticmethod
    def of(asked, folder, program):
        text, place, types = text_in(folder, asked, replace(making.Way.of(asked), lines=True, unasked=True))
        return Question(asked, Path(folder), program, text, texts.read(text_of(text), text).test, place, types)

    def certificate(self):
        return Path(self.folder, self.text.with_suffix(".certificate").name)

    def by_types(self, given):
        """The bytes of records that are asked for where nobody says which, or None."""
        return queue_types.bytes_by_types(queue_types.slots_in(given), self.types) if self.types else None

    def of_records(self, given):
        by_types, said = self.by_types(given), {name: getattr(self.asked, name) for name in BYTES}
        return {name: None if each == NONE else each or (by_types if name in SEARCHED else None) for name, each in said.items()}

    def certified(self, given, of_records):
        """What tools/certify prints of the harts, and says beside that. It leaves the certificate."""
        said = [*queue_hints.of_wraps(each for kind, each in zip(given[::2], given[1::2]) if kind == "--queue")]
        if self.asked.lines:
            for line in said:
                complain("queue", line)
        options = options_of({**{name: each for name, each in of_records.items() if name in SEARCHED}, "seconds": self.asked.seconds})
        status, found, error = ran(TOOLS / "certify", self.text, *given, "-o", self.certificate(), *options, "--progress", "--program", self.program, does="looking for a certificate")
        told = [line.removeprefix("certify: ") for line in error.splitlines() if not line.startswith(PROGRESS)]
        told = [line for line in told if line not in said]
        if status == OWN_FAULT:
            raise ToolFault("\n".join(told))
        if status == WRONG or not found:
            raise Refused("\n".join(told))
        if self.asked.lines:
            for line in told:
                complain("queue", line)
        return found.splitlines(), [*said, *told]

    def answer(self, of_records, **drawn):
        """The status and the answer of `ztso queue`, by these options of drawn runs in place of the call's."""
        passed = options_of({name: getattr(self.asked, name) for name in PASSED} | of_records | drawn)
        passed += ["--harts"] * self.asked.of_harts + ["--safety"] * self.asked.safety
        status, answer, error = ran(self.program, "queue", self.text, "--certificate", self.certificate(), *passed, does="judging the certificate")
        if status == WRONG and error.endswith("bad command line"):
            other = f"doesn't take {' '.join(passed)}, or " if passed else ""
            raise Refused(f"{self.program} {other}has no command queue, so nothing judges the certificate: take a newer program, and -o keeps the certificate")
        if error:
            raise Refused(error.removeprefix("ztso: "))
        return status, answer

    def with_shares(self, answer):
        """An answer with the line on what harts share: of a protocol that is kept the program says it by one more call, where --of-harts doesn't ask."""
        if not answer.startswith("kept") or Said(answer).one(OfShares):
            return answer
        said = ran(self.program, "queue", self.text, "--certificate", self.certificate(), *OF_SHARES)[1]
        found = "".join(f"{line}\n" for line in said.splitlines() if any(isinstance(each, OfShares) for each in values_of([line])))
        return queue_words.PROMISED.sub(lambda shape: found + shape[0], answer, count=1)

    def replays(self, run):
        """Whether the program replays a run with the same entries."""
        path = Path(self.folder, f".replayed{SHOWN_FILE}")
        path.write_text(run.schedule())
        status, output, _ = ran(self.program, "replay", self.text, path, "--buffer", self.buffer())
        path.unlink()
        return status == 0 and output.splitlines() == [entry.text for entry in run.entries]

    def buffer(self):
        return int(self.asked.buffer or BUFFER)

    def is_input(self, at):
        """Whether any value may be loaded from a byte."""
        return self.types is not None and any(begin <= at < begin + width for begin, width in self.types.words.inputs)

    def beside(self, said, queues):
        """The bytes that harts may share, as far as the program shows that, beside the queues and inputs."""
        return {at for first, last in said.shared() or () for at in range(first, last + 1)
                if not (self.is_input(at) or any(queue.meets(at, 1) for queue in queues))}

    def proposed(self):
        """What is said of the queue that drawn runs propose, which the call has then; or None of a call that says where its queue lies."""
        if (self.asked.queue or self.asked.tagged) and not queue_described.is_proposed(self.asked):
            return None
        said = ran(TOOLS / "certify", self.text, "--program", self.program, does="drawing runs")[1].strip()
        return queue_described.take_proposed(self.asked, said, self.test, self.types)


def text_in(folder, asked, way):
    """The litmus text of the files, made in the folder; what gives the place in it that their author calls so; and the types of places, or None."""
    files, first = asked.files, Path(asked.files[0])
    if any(Path(file).suffix == LITMUS for file in files):
        if len(files) > 1 or way != making.Way(lines=True, unasked=True):
            raise Refused("a litmus text stands alone, and takes no option of a compiler")
        return first, lambda place: queue_described.named_in(texts.read(text_of(first), first).test.locations, place), None
    is_c = first.suffix == C and len(files) == 1 and not way.harts and not way.ask
    try:
        text, words = making.brought(files, way, "from-c", making.C) if is_c else making.brought(files, way)
    except Refused as refused:
        raise Refused(making.with_name(files[0], refused), refused.before) from None
    path = Path(folder, first.with_suffix(LITMUS).name)
    put(path, text)
    return path, lambda name: str(words.address(name)), queue_types.Types(words)


# ---- the answer

def decided(question, of_records, shared):
    """The status and the answer, and a line where longer runs decided: those of a hint, or such as a lost record is looked for in, if nobody said how runs
    are drawn. Of a hart that stops they would be no better."""
    status, answer = question.answer(of_records)
    if question.asked.runs or question.asked.length or shared.stops:
        return status, answer, None
    longer = []
    if status == NOT_SHOWN:
        longer = [(each.length, each.runs) for each in queue_hints.of_longer(answer, text_of(question.certificate()))]
    elif status == OTHER and Said(answer).one(NoneLost):
        longer = [LONGER_LOSS]
    for length, runs in longer[:1]:
        later, other = question.answer(of_records, length=str(length), runs=str(runs))
        if later in (BROKEN, OTHER) and later != status:
            return later, other, f"found by longer drawn runs: --length {length} --runs {runs}"
    return status, answer, None


def fences_of(question, answer):
    """Of a queue that is kept what stands between its records and its indices, by the certificate's states, with what reads them; else nothing."""
    if not answer.startswith("kept"):
        return None, []
    judge = Judge(question.test, text_of(question.certificate()))
    return judge, queue_fences.of_answer(judge)


@dataclass(frozen=True)
class Answer:
    """An answer: what a report has of it, and what scripts read."""
    report: queue_report.Report
    data: dict


def places_of(question):
    """What the sources call a text's places, and what its harts share."""
    asked, shared = question.asked, Shared(question.test)
    sources = queue_asked.headers_in(asked.flag) | queue_asked.sources_of(asked.files, text_of(question.text), question.types is not None)
    return Places(question.test, [*c_lines.notes_of(question.test)], sources, question.types, shared.widths), shared


def proposed_in(question, places, shared):
    """What drawn runs propose, or None of a call that says where its queue lies. Where they propose nothing it is refused, with why for a person."""
    try:
        return question.proposed()
    except queue_described.Unproposed as unproposed:
        unproposed.short = queue_unproposed.short(queue_unproposed.Nothing(question.test, places, shared))
        raise


def judged(asked, folder, program):
    """The answer to what is asked."""
    question = Question.of(asked, folder, program)
    places, shared = places_of(question)
    proposed = proposed_in(question, places, shared)
    given = [*queue_described.described(asked, question.place, question.types)]
    of_records = question.of_records(given)
    found, told = question.certified(given, of_records)
    queues = queue_hints.queues_of(text_of(question.certificate()))
    for line in queue_hints.of_bytes({name: getattr(asked, name) for name in BYTES}, queues):
        complain("queue", line)
    status, answer, again = decided(question, of_records, shared)
    answer = question.with_shares(answer)
    said = Said(answer)
    judge, fences = fences_of(question, answer)
    outside = [at for at in shared.places(queues) if not question.is_input(at)]
    seen = places.of_bytes({byte for at in outside for byte in range(at, at + shared.widths[at])})
    unseen = [name for name in places.of_bytes(question.beside(said, queues)) if name not in seen]
    is_more = proposed and (outside or unseen or said.shared() is None or shared.stops)
    status, verdict = of_verdict(asked, status, said.first, fences, is_more)
    about = queue_asked.About.of(asked.files, text_of(question.text), question.types is not None, program, sys.argv[1:])
    described = [f"{kind} {queue_described.in_source(each, question.test, question.types)}" for kind, each in queue_described.given_of(asked)]
    case = Case(status, verdict, said.first, said, queues, question.test, places, shared, outside, unseen, bool(proposed), fences,
                [each for each in values_of(found) if isinstance(each, Uncovered)], told,
                hints_of(question, answer, found, places, queues, given, judge), about, described, asked.flag, asked.files, question.buffer(),
                question.replays, again)
    short = SHORT[status](case)
    widths = [*queue_asked.width_tests(asked.files, places.sources)]
    short.limits += [Line(line, MODEL) for line in widths]
    in_full = [f"{kind} {each}" for kind, each in zip(given[::2], given[1::2])]
    report = queue_report.Report(status, verdict, about, in_full, question.text, question.certificate(), case.said.schedule, question.buffer(), short)
    keep_schedules(question, report)
    return Answer(report, queue_data.of_answer(case, asked, report, of_records, all_lines(question, case, answer, found, judge, proposed, widths)))


def of_verdict(asked, status, verdict, fences, is_more):
    """The status and the verdict, where fences are required, or `auto` finds that more is shared than it asks about, or that a hart stops."""
    if asked.require_fences and status in (KEPT, STUCK) and not all(each.are_all() for each in fences):
        return FENCES, queue_fences.LACKING
    return (NOT_ALL, NOT_ALL_SHOWN) if is_more and status == KEPT else (status, verdict)


@dataclass(frozen=True)
class Indices:
    """What the source calls indices, and which of them a compiler may keep in registers."""
    places: Places
    queues: list

    def called(self, number, index):
        return self.places.indices(self.queues[number])[index == "tail"]

    def may_be_dropped(self, number, index):
        return not (self.places.types and self.places.types.is_volatile(self.called(number, index)))


def hints_of(question, answer, found, places, queues, given, judge):
    """What helps after an answer, by its kind."""
    certificate, text, is_broken = text_of(question.certificate()), text_of(question.text), answer.startswith(("broken", "does not keep"))
    unsaid = [name for name in BYTES if getattr(question.asked, name) is None]
    # where the call says how runs are drawn, longer ones weren't
    is_said = question.asked.runs or question.asked.length
    indices = Indices(places, queues)
    return {"constants": [*queue_hints.of_constants(judge, question.types)] if judge and question.types else [],
            "asked": [*queue_hints.of_asked(answer, question.by_types(given), unsaid)],
            # what differs by its party alone is said once
            "stuck": [*{re.sub(r"hart [0-9]+|head|tail", "", plainly): named for plainly, named in zip(
                queue_hints.of_stuck(answer, text, certificate), queue_hints.of_stuck(answer, text, certificate, indices))}.values()],
            "unused": [] if is_broken else [*queue_hints.of_unused(answer, certificate, question.test)],
            "uncovered": [*dict.fromkeys(queue_hints.of_uncovered("\n".join(found), places.notes, queues, question.test, is_broken))],
            "longer": [each.options() for each in queue_hints.of_longer(answer, certificate) if is_said]}


def keep_schedules(question, report):
    """Leaves the schedules beside the certificate."""
    shown = report.short.shown
    for suffix, schedule in ((SCHEDULE_FILE, report.schedule), (SHOWN_FILE, shown and shown.schedule)):
        if schedule:
            Path(question.folder, question.text.with_suffix(suffix).name).write_text(schedule)


# ---- all lines

def with_sources(lines, notes, codes, reworded=lambda line: line, names=lambda line: ()):
    """The lines, with the source's line after each that names an instruction, and what gives the names of the bytes in a line."""
    for line in lines:
        yield reworded(line)
        named = queue_words.NAMED.search(line)
        if named and (hart := int(named[1])) < len(notes):
            yield from queue_words.source_lines(hart, int(named[2]), notes, codes[hart])
        yield from names(line)


def all_lines(question, case, answer, found, judge, proposed, widths):
    """All that the program prints, with the source's lines and names."""
    types, notes, certificate = question.types, case.places.notes, text_of(question.certificate())
    first, promised, rest, run = queue_words.in_order(answer)
    with_lines = partial(with_sources, notes=notes, codes=question.test.codes)
    body = with_lines(queue_words.joined(rest, notes), reworded=partial(queue_words.worded, name_of=case.places.name_of),
                      names=lambda line: queue_types.names_of(line, case.queues, types) if types else ())
    of_kept = [*case.hints["constants"],
               *chain.from_iterable(queue_fences.lines(judge, each, question.asked.require_fences) for each in case.fences)] if judge else []
    lines = chain([case.about.verdict(case.first)], [*with_lines([first])][1:], promised, with_lines(of_kept), queue_hints.added(body, certificate),
                  with_lines(line for line in found if not queue_words.COVERED.match(line)),
                  with_lines(queue_hints.at_end(answer, "\n".join(found), notes, certificate, question.test)),
                  with_lines(queue_hints.of_stuck(answer, text_of(question.text), certificate)),
                  case.hints["asked"], filter(None, [proposed]), [line.text for line in queue_kept.of_others(case)] * case.is_auto, widths, case.about.lines(),
                  filter(None, [case.again]), run)
    return [plain(queue_asked.to_source(case.places.sources, line)) for line in lines]
