"""Keeps what a run that failed can be followed up with: the test, the log, the record, and of a refused record the
shortened front, which is refused at its last event."""

import shlex
import shutil

from core_log_parts import record

from . import ROOT, judge

CONVERTER = ROOT / "tools/core-log-to-record"


def shortened(events, is_same):
    """Events of which the last one is refused, without those of other harts, and without landings, that this doesn't
    need: without any one of these it would be refused in another way, or not. `is_same` answers whether events are
    refused as these."""
    kept, last = events[:-1], events[-1:]
    size = len(kept)
    while size:
        begun, at = len(kept), len(kept)
        while at > 0:
            # a hart's acts can only be left out from their end
            start = max(0, at - size)
            left = kept[:start] + [each for each in kept[start:at] if not may_go(each, last[0])] + kept[at:]
            if len(left) < len(kept) and is_same(left + last):
                kept = left
            at = start
        size = size // 2 if size > 1 else int(len(kept) < begun)
    return kept + last


def may_go(event, last):
    """Whether a refused event may be understood without this one: an act of its own hart it needs in any case."""
    return event.hart != last.hart or event.letter == "l"


def front_of(asked, path, events, line):
    """The shortened front of a refused record, given the line of its judgement."""
    number = judge.event_of(line)
    if number is None:
        return None
    wanted = line.partition(": ")[2]

    def is_same(these):
        found = judge.judge(asked.program, path, [record.text(these)], asked.buffer)[0]
        return judge.event_of(found) == len(these) - 1 and found.partition(": ")[2] == wanted

    return shortened(events[:number + 1], is_same)


def keep(asked, entry, test, run, lines, events, line):
    """Writes a run's files into a folder of its own, and answers what is printed of them."""
    folder = (asked.keep / f"{entry.path.stem}.run-{run.seed}").resolve()
    folder.mkdir(parents=True, exist_ok=True)
    litmus = folder / entry.path.name
    if litmus != entry.path.resolve():
        shutil.copyfile(entry.path, litmus)
    (folder / "run.log").write_text("".join(f"{each}\n" for each in lines))
    (folder / "run.record").write_text(record.text(events))
    (folder / "test.steps").write_text(test.text)
    front = front_of(asked, entry.path, events, line) if line.startswith(judge.DIFFERS) else None
    if front:
        (folder / "front.record").write_text(record.text(front))
        (folder / "before.record").write_text(record.text(front[:-1]))
    return "\n".join(["kept, with these commands:", *(f"  {each}" for each in commands(asked, folder, litmus, run, front))])


def commands(asked, folder, litmus, run, front):
    """What shows the run: the words of command lines, as a shell reads them."""
    test, program = shlex.quote(litmus.name), shlex.quote(str(asked.program))
    buffer = f" --buffer {asked.buffer}" if asked.buffer != 4 else ""
    order = f" --order {asked.order}" if asked.order != record.ORDERS[0] else ""
    yield f"cd {shlex.quote(str(folder))}"
    if front:
        yield f"{program} check {test}{buffer} < front.record      # {len(front)} events, the last of which is refused"
        yield f"{program} chart {test} before.record{buffer}"
        yield f"{program} debug {test} before.record{buffer}"
    yield f"{shlex.quote(str(CONVERTER))} {test}{order} --program {program} < run.log | {program} check {test}{buffer}"
    yield f"{shlex.quote(str(asked.bench))} +test=test.steps +seed={run.seed} +runs=1"
