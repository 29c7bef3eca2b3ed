"""What an answer for a person is made of: what was asked, what the program answered, and what the sources call it."""

from dataclasses import dataclass
from pathlib import Path

from bring_parts import queue_asked, queue_runs
from bring_parts.queue_places import Places
from bring_parts.queue_said import Said
from bring_parts.queue_shared import Shared
from bring_parts.queue_short import HELP, LONGER, At, Line

WRAPS = "its counts wrap at"
# how a verdict ends of a program of which nothing is proved
UNPROVED = "; unproved build"
# the exit statuses of an answer
KEPT, WRONG, READS, NOT_SHOWN, BROKEN, NOT_ALL, STUCK, OTHER, FENCES = 0, 2, 6, 7, 8, 9, 10, 11, 12
# that of a fault of tools/certify itself
OWN_FAULT = 70


@dataclass
class Case:
    """`first` is the verdict as it begins, `kept` that of the program alone; `described` are the queues as they were described, with their sizes left out or
    not, each as its option; `replays` says whether the program replays a run with the same entries; `found` is what tools/certify says of harts, and `told`
    what it says beside; `outside` are places that drawn runs share beside the queues, and `unseen` the names of what only the proved bound has there;
    `hints` are those of queue_hints, by their kind; `again` is a line on longer runs that decided, or None."""
    status: int
    first: str
    kept: str
    said: Said
    queues: list
    test: object
    places: Places
    shared: Shared
    outside: list
    unseen: list
    is_auto: bool
    fences: list
    found: list
    told: list
    hints: dict
    about: queue_asked.About
    described: list
    flags: list
    files: list
    buffer: int
    replays: object
    again: str = None

    # ---- names

    def title(self, queue=None):
        """Which queue an answer is about, or all of them."""
        if queue is None and len(self.queues) > 1:
            return f"queues {', '.join(map(self.places.called, self.queues))}"
        return f"queue {self.places.called(queue or self.queues[0])}"

    def at(self, hart, pc, says):
        return At(hart, pc, self.places.source(hart, pc), says)

    def line(self, hart, pc):
        return self.places.line(hart, pc)

    def wraps(self):
        """What was said of counts that wrap where no turn of the slots ends."""
        return [line.partition(": ")[2] for line in self.told if WRAPS in line]

    # ---- what harts share

    def shares_queues_alone(self):
        """Whether it is proved that harts share nothing beside the queues, except inputs."""
        return self.said.shared() is not None and not (self.outside or self.unseen)

    # ---- the run of the program's schedule

    def run(self):
        return queue_runs.of_schedule(self.test, self.buffer, self.said.schedule) if self.said.schedule else None

    # ---- what was asked

    def is_proved(self):
        return self.about.judge.endswith(queue_asked.PROVED)

    def verdict(self, line, queue=None):
        """A verdict, of a queue, or of all."""
        return ", ".join([f"{line}: {self.title(queue)}", *self.about.opened]) + UNPROVED * (not self.is_proved())

    def asked(self, shown=None):
        """The last lines: what was asked, and where the rest is."""
        compiler = ", ".join(queue_asked.in_short(each) for each in self.about.compilers)
        by = f"{'by its comment ' * (self.places.types is None)}{compiler} for RV32IA" if compiler else f"{Path(self.files[0]).name} as it stands, RV32IA"
        # a compiler's name has its level
        flags = [flag for flag in self.flags if not flag.startswith("-O")]
        code, queues = ", ".join([" ".join([by, *flags]), *self.about.opened]), " ".join(map(self.completed, range(len(self.described))))
        yield Line(f"asked: {code}, under Ztso, of {queues}")
        if self.again:
            yield Line(self.again, LONGER)
        draws = "draws this run" if shown else "draws a run" if self.said.schedule else "keeps it as a page"
        yield Line(f"all of it: --lines; --report FOLDER {draws}", HELP)

    def completed(self, at):
        """A queue as it was described, with the number of its slots."""
        kind, given = self.described[at].split(" ", 1)
        number = sum(each.startswith(f"{kind} ") for each in self.described[:at])
        queue = [each for each in self.queues if each.has_tags == (kind == "--tagged")][number]
        keys = ",".join(each for each in given.split(",") if not each.startswith("size="))
        return f"{'--tagged ' * queue.has_tags}{keys},size={queue.size}"
