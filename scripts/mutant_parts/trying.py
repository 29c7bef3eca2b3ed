"""The trial of one crate's mutants, in a lane: a check of the crate as it stands, passes, the edits that go alone, and
the check of the crate as it stands again, each over the same kept proofs."""

import os
import time
from typing import NamedTuple

from crates import TOP
from lanes import linked

from . import outputs, passes
from .edits import Unfit
from .outputs import BAD, CALLS, PROVED, REFUSED, UNCLEAR, Output, shown

WHY = {
    PROVED: "NOT REFUSED: the crate is still proved",
    CALLS: "NOT REFUSED: its function is reported only as a caller of another",
    BAD: "BAD EDIT, so no contract was tried",
    UNCLEAR: "NOT TRIED",
}


class Verdict(NamedTuple):
    """What was found of a mutant, and the line of the check that tells it."""

    kind: str
    line: str


class Checks:
    """Checks of a crate in a lane with other texts, each over the same kept proofs."""

    def __init__(self, lane, name, outputs=None):
        self.lane, self.name, self.outputs = lane, name, outputs
        self.out = lane.crates / name / "out/incremental"
        self.kept = lane.crates / name / "out/kept"
        # processor seconds by what they were spent on, and how many checks there were
        self.seconds, self.number = {}, 0

    def run(self, texts, kind):
        """The output of a check with these texts in place of the crate's own."""
        crate = self.lane.crates / self.name
        before = {path: (crate / path).read_text() for path in texts}
        for path, text in texts.items():
            (crate / path).write_text(text)
        text, status, seconds = self.lane.timed(self.name, "check", "--jobs", "1")
        for path, own in before.items():
            (crate / path).write_text(own)
        self.seconds[kind] = self.seconds.get(kind, 0) + seconds
        self.number += 1
        if self.outputs:
            (self.outputs / f"{self.name}-{self.number}-{kind}.txt").write_text(f"status {status}\n{text}")
        return Output(text, status)

    def begin(self):
        """Whether the crate is proved as it stands; what that proves is kept for the others."""
        self.lane.take(self.name, "incremental", TOP / "crates")
        output = self.run({}, "before")
        if output.is_proved() and self.out.is_dir():
            os.rename(self.out, self.kept)
            home = TOP / "crates" / self.name / "out/incremental"
            if not home.exists():
                linked(self.kept, home)
        return output

    def over_kept(self, texts, kind):
        """The output of a check over what the first one kept, which it leaves as it is."""
        if self.kept.is_dir():
            linked(self.kept, self.out)
        return self.run(texts, kind)


# what was refused is kept after each of so many seconds by the clock, so that a run that is ended loses no more
KEPT_EACH = 600


class Trial:
    """The mutants of a crate, and what was found of each; `keep` is given the trial whenever what was found is to be kept."""

    def __init__(self, checks, crate, edits, tell, keep=lambda trial: None):
        self.checks, self.crate, self.edits, self.tell, self.keep = checks, crate, edits, tell, keep
        self.found, self.passes, self.alone = {}, 0, []
        # pairs of edits of which the first one's function rests on the second one's
        self.waits = set()
        # by edit, the function whose body alone it changes, and the check's name of that
        self.functions, self.names = {}, {}

    def settle(self, edit, kind, line):
        self.found[edit.name] = Verdict(kind, line)
        words = "refused" if kind == REFUSED else WHY[kind]
        self.tell(f"{self.checks.name}: {edit.name}: {words}: {shown(line)}")

    def fail_all(self, line):
        """Says of each mutant that nothing is known of it."""
        for edit in self.edits:
            self.settle(edit, UNCLEAR, line)

    def run(self):
        """Whether what was found stands: the crate without an edit is proved before and after."""
        output = self.checks.begin()
        if not output.is_proved():
            self.fail_all(f"{self.checks.name} without an edit isn't proved: {output.verdict or output.lines[-1]}")
            return False
        self.sort(output)
        left, calls = dict(self.functions), passes.Calls(self.crate)
        while left:
            one = passes.packed(list(left.items()), calls, self.waits)[0]
            for edit, _ in one:
                del left[edit]
            left |= self.together(one)
        kept = time.monotonic()
        for edit in self.alone:
            if time.monotonic() - kept > KEPT_EACH:
                if not self.confirm():
                    return False
                kept = time.monotonic()
            self.one(edit)
        return self.confirm()

    def confirm(self):
        """Keeps what was refused, if the crate as it stands is still proved over the same kept proofs; whether it is."""
        output = self.checks.over_kept({}, "after")
        if output.is_proved():
            self.keep(self)
        else:
            self.fail_all(f"{self.checks.name} without an edit isn't proved over the same kept proofs any more: {output.verdict or output.lines[-1]}")
        return output.is_proved()

    def refused(self):
        """The mutants that were refused so far."""
        return [edit for edit in self.edits if edit.name in self.found and self.found[edit.name].kind == REFUSED]

    def sort(self, before):
        """Finds which edits go into passes: those of a body whose function has one name in what the first check printed."""
        for edit in self.edits:
            try:
                function = passes.body_changed(edit)
            except Unfit as why:
                self.settle(edit, BAD, str(why))
                continue
            if function and (name := before.named(function)):
                self.functions[edit], self.names[edit] = function, name
            else:
                self.alone.append(edit)

    def together(self, one):
        """Tries a pass; returns those of it that are to be tried in a further one, each with its function."""
        if len(one) == 1:
            self.alone.append(one[0][0])
            return {}
        self.passes += 1
        edits = [edit for edit, _ in one]
        output = self.checks.over_kept(passes.texts_of(edits), "passes")
        if blamed := [edit for edit, function in one if output.blames(function)]:
            self.alone += blamed
            return {edit: function for edit, function in one if edit not in blamed}
        if not output.is_refused() or output.strangers([self.names[edit] for edit in edits]):
            # it isn't known for which: half of them at a time until it is found
            half = len(edits) // 2
            self.waits |= {(edit.name, other.name) for edit in edits[:half] for other in edits[half:]}
            return dict(one)
        again = {}
        for edit, function in one:
            kind, line = outputs.together(output, self.names[edit], function)
            if kind == CALLS:
                again[edit] = function
                callees = output.below(self.names[edit])
                others = [other for other in edits if other is not edit]
                self.waits |= {(edit.name, other.name) for other in [it for it in others if self.names[it] in callees] or others}
            elif kind == REFUSED:
                self.settle(edit, kind, line)
            else:
                self.alone.append(edit)
        return again

    def one(self, edit):
        """Tries an edit by itself, as `rt must-fail` does."""
        try:
            texts = edit.applied()
        except Unfit as why:
            return self.settle(edit, BAD, str(why))
        output = self.checks.over_kept(texts, "alone")
        kind, line = outputs.alone(output, texts)
        if kind == REFUSED and edit in self.functions:
            read = outputs.together(output, self.names[edit], self.functions[edit])
            kind, line = read if read[0] == CALLS else (kind, line)
        return self.settle(edit, kind, line)
