"""Runs of a log made to records, where the log is long by several processes, each with a part of its runs."""

import os
import re
from typing import NamedTuple

from bring_parts import Refused

from . import faults, landings, log, record

# a run begins at such a line
BEGIN = re.compile(r"^[^\S\n]*run[^\S\n]", re.MULTILINE)
DRAIN = re.compile(r"^[^\S\n]*drain[^\S\n]", re.MULTILINE)
# from how many characters on a log is made by several processes, and how many parts each of them gets
LONG, PARTS = 1 << 20, 4
# where a step has its cycles
CYCLES = {log.Retired: (0, 11), log.Trapped: (0,), log.Drained: (0,)}
# how many faults of a run are said
MOST = 10


class Made(NamedTuple):
    """The record of a run: its seed, its text, what is said of its faults, how many there are, and if these are asked for of each event the line of
    the log and the cycle, and the last state that the log has."""
    seed: int
    text: str
    told: list
    faults: int
    places: list
    state: dict


def made_of(run, test, asked):
    """What a run comes to."""
    try:
        events = record.events(run, test, asked.order, asked.buffer)
    except landings.TooLong:
        raise Refused(f"run {run.seed}: it has more than {landings.ACTS} acts, or the search for its landings saw "
                      f"{landings.STATES} states: give a shorter run, or a log with landings") from None
    notes = list(faults.faults(run, test, events, asked.order))
    told = [note.text for note in notes[:MOST]] + [f"{len(notes) - MOST} faults more"] * (len(notes) > MOST)
    places = [(each.step.line, each.step.cycle) if each.step else None for each in events] if asked.check else []
    return Made(run.seed, record.text(faults.ended(events, notes)), told, len(notes), places, run.state if asked.check else {})


def order_of(run):
    """All that the record of a run without faults depends on: of its cycles only which is before which."""
    cycles = sorted({step[at] for step in run.steps for at in CYCLES[type(step)]})
    ranks = {cycle: rank for rank, cycle in enumerate(cycles)}
    return run.cycles is None, run.timed_out, *[(type(step), ranks[step[0]], step[1:5]) if len(CYCLES[type(step)]) == 1 else
                                                (ranks[step[0]], ranks[step[11]], step[1:11]) for step in run.steps]


def made_of_runs(runs, test, asked, others_land=False):
    """What those of the runs come to that are asked for. Those that are in order like one before have its record."""
    known = {}
    for run in runs:
        if asked.run not in (None, run.seed):
            continue
        run.others_land = others_land
        order = order_of(run) if asked.log == "core" and not asked.check else None
        made = known.get(order) if order else None
        if made is None:
            made = made_of(run, test, asked)
            if order and not made.faults and len(known) < log.KEPT:
                known[order] = made
        yield made._replace(seed=run.seed)


def parts_of(text, count):
    """A log's text in about `count` parts, each of whole runs: where each begins, and its first line's number."""
    begins = [shape.start() for shape in BEGIN.finditer(text)][1:]
    wanted = [len(text) * number // count for number in range(1, count)]
    cuts = sorted({next((begin for begin in begins[len(begins) * number // count:] if begin >= goal), len(text))
                   for number, goal in enumerate(wanted, 1)} - {len(text)})
    line, before = 1, 0
    for cut in [0, *cuts]:
        line += text.count("\n", before, cut)
        before = cut
        yield cut, line


class Long:
    """A log's text, which processes that are made by a fork share."""
    text, test, asked, ends, lands = "", None, None, {}, False


def made_of_part(part):
    """What the runs of a part come to, and what was skipped; of a log that can't be read what is said, after what comes before."""
    begin, line = part
    skipped, made = {}, []
    try:
        found = log.runs(Long.text[begin:Long.ends[begin]].split("\n"), skipped, line)
        made.extend(made_of_runs(found, Long.test, Long.asked, Long.lands))
    except (Refused, log.LogError) as error:
        return made, skipped, str(error)
    return made, skipped, None


def made_of_log(text, test, asked, skipped):
    """The records of a core's log, in its order."""
    count = len(os.sched_getaffinity(0))
    lands = bool(DRAIN.search(text))
    if len(text) < LONG or count == 1:
        yield from made_of_runs(log.runs(text.split("\n"), skipped), test, asked, lands)
        return
    parts = list(parts_of(text, count * PARTS))
    begins = [begin for begin, _ in parts]
    Long.text, Long.test, Long.asked, Long.ends, Long.lands = text, test, asked, dict(zip(begins, [*begins[1:], len(text)])), lands
    import multiprocessing  # a short log needs none of it
    with multiprocessing.get_context("fork").Pool(count) as pool:
        for made, other, refused in pool.imap(made_of_part, parts):
            yield from made
            log.add_skipped(skipped, other)
            if refused:
                raise Refused(refused)
