"""Writes into cases what the second implementation answers. What the program answers is never written."""

import os

from . import differing, escapes, form, running
from .links import ROOT

REFERENCE = ROOT / "tools/reference/ztso"


def why_not(case):
    """Why the second implementation has no answer to a case that could be written into it, or None."""
    if case.tool:
        return "it is a tool's: what must come is worked out by hand"
    if case.path.suffix not in form.SUFFIXES:
        return "it is an example of a page: change the page"
    if case.words[:1] == [b"threads"]:
        return "threads make another run each time"
    if case.memory is not None or case.wiped is not None or case.stdout.device:
        return "it is about memory, a terminal or a device, and Python is another program there"
    if case.stdout.source:
        return f"its output is that of {case.stdout.source}"
    return None


def renewed(case, folder):
    """Writes a case with the second implementation's answer, and returns the lines that say how it changed; or raises
    running.Wrong where it can't be written."""
    if why := why_not(case):
        raise running.Wrong(why)
    came = running.run(REFERENCE, case, folder)
    if came[0] not in range(12) or b"Traceback" in came[1]:
        raise running.Wrong(f"tools/reference/ztso fails: {came[1][-200:].decode(errors='replace')}")
    lines = differing.difference(case.answer(), came)
    if not lines:
        return []
    if case.like and (came[0], came[2]) != (case.status, b""):
        raise running.Wrong(f"it is like {case.like[0]}, which has another status or output: write it whole")
    case.status, case.stderr, case.stdout.text = came[0], came[1], escapes.pieces_of(came[2])
    form.replace(case.path, case)
    return lines


def renew(cases, folder):
    """Renews cases, prints what changes, and answers how many changed and how many can't be written."""
    changed = wrong = 0
    for case in cases:
        place = f"{case.full_name()} ({os.path.relpath(case.path)})"
        try:
            lines = renewed(case, folder)
        except running.Wrong as error:
            print(f"{place}: not written: {error}")
            wrong += 1
            continue
        if lines:
            changed += 1
            print("\n".join([place, *(f"  {line}" for line in lines)]))
    return changed, wrong
