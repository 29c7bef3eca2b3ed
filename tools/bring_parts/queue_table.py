"""A question of several compilers and levels of optimization: a way of asking for each, and the table of what comes of them."""

import argparse
import re
from pathlib import Path

from bring_parts import Refused, languages
from bring_parts.languages import OBJECT
from bring_parts.queue_case import BROKEN, FENCES, KEPT, NOT_ALL, NOT_SHOWN, OTHER, OWN_FAULT, READS, STUCK, WRONG

LEVELS = ("0", "1", "2", "3", "s", "z", "g", "fast")
USUAL = "gcc"
# the statuses, the worst one first: a fault of the queue, then what says nothing, then what lacks something
WORST = (BROKEN, OTHER, READS, OWN_FAULT, WRONG, NOT_SHOWN, FENCES, NOT_ALL, STUCK, KEPT)
# what no folder's name has
STRANGE = re.compile(r"[^\w.+-]+")


def compilers_of(asked):
    """The compilers of a call, by --compiler and --each."""
    named = [*(asked.compiler or ()), *(name for each in asked.each or () for name in each.split(","))]
    if not all(named):
        raise Refused("--each takes compilers with a comma between, as --each gcc,clang")
    return [*dict.fromkeys(named)] or [USUAL]


def levels_of(asked):
    """The flags of the call's levels; one of none where it has none."""
    levels = asked.levels.split(",") if asked.levels is not None else []
    for level in levels:
        if level not in LEVELS:
            raise Refused(f"--levels takes {', '.join(LEVELS)}, with a comma between, as --levels 0,2,s, and not {level or 'nothing'}")
    return [f"-O{level}" for level in dict.fromkeys(levels)] or [""]


def is_table(asked):
    return bool(asked.each or asked.levels is not None or len(asked.compiler or ()) > 1)


def ways(asked):
    """The calls by one compiler and level each, by what they are called. Of several each has its own folders below those of the call."""
    if is_table(asked) and not any(languages.language_of(file) != OBJECT and Path(file).suffix != ".litmus" for file in asked.files):
        raise Refused(f"{asked.files[0]}: nothing is compiled here, so --each, --levels and a second --compiler say nothing: give the source")
    found = {}
    for compiler in compilers_of(asked):
        for level in levels_of(asked):
            name = f"{compiler} {level}".strip()
            way = argparse.Namespace(**vars(asked))
            way.compiler, way.flag = compiler, [*asked.flag, *filter(None, [level])]
            # what drawn runs propose takes the place of `auto` in them
            way.queue, way.tagged = (given and [*given] for given in (asked.queue, asked.tagged))
            if is_table(asked):
                below = STRANGE.sub("-", name.replace(" -", "-"))
                way.output, way.report = (folder and str(Path(folder, below)) for folder in (asked.output, asked.report))
            found[name] = way
    return found


def row(name, width, data):
    """A line of the table: by what, the status, the verdict, and the first place."""
    at = next((f"  {place['file']}:{place['line']}" for place in data["places"] if place["file"] and place["line"]), "")
    return f"{name:{width}}  {data['status']:>2}  {data['short'][0]}{at}"


def worst(statuses):
    """The worst status, of the statuses by what they came of, and the line that says it."""
    status = min(statuses.values(), key=WORST.index)
    names = [name for name, each in statuses.items() if each == status]
    return status, f"worst: status {status}, by {', '.join(names) if len(names) < len(statuses) else 'all'}"
