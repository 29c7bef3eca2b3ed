"""Answers about queues as SARIF 2.1.0, which shows them beside the lines of a source: a rule for each exit status, and a result for each answer that isn't
*kept*, with its places."""

import json
import re
from pathlib import Path
from urllib.parse import quote

from bring_parts import ROOT, plain
from bring_parts.queue_case import BROKEN, FENCES, KEPT, NOT_ALL, NOT_SHOWN, OTHER, OWN_FAULT, READS, STUCK, WRONG

SCHEMA, FORM = "https://json.schemastore.org/sarif-2.1.0.json", "2.1.0"
ERROR, WARNING = "error", "warning"
# how a compiler's line begins
PLACE = re.compile(r"([^\s:]+):(\d+):")
# by the status a rule's name, how grave it is, and what it says
RULES = {KEPT: ("kept", "none", "every run keeps the protocol"),
         WRONG: ("refused", ERROR, "nothing was asked: a file, an option or a description is refused"),
         READS: ("reads-not-shown", ERROR, "a load may be of a slot that its hart doesn't own"),
         NOT_SHOWN: ("not-shown", WARNING, "no certificate was found, and no drawn run breaks the protocol: nothing is claimed"),
         BROKEN: ("broken", ERROR, "a run breaks the protocol and loses a record"),
         NOT_ALL: ("not-all-shown", WARNING, "the protocol is kept, and not all that was asked is shown"),
         STUCK: ("not-shown-to-go-on", WARNING, "the protocol is kept, and it isn't shown that the queue goes on"),
         OTHER: ("another-protocol", ERROR, "a run doesn't keep the protocol that was described"),
         FENCES: ("fence-missing", ERROR, "the protocol is kept, and a fence that was required is missing"),
         OWN_FAULT: ("fault-of-the-tool", ERROR, "a tool failed, which says nothing of the queue")}


def uri_of(file):
    """A file as SARIF names it: from this folder on, if it lies below it."""
    path = Path(file).resolve()
    return quote(path.relative_to(Path.cwd()).as_posix()) if path.is_relative_to(Path.cwd()) else path.as_uri()


def location(file, line, says=None):
    place = {"physicalLocation": {"artifactLocation": {"uri": uri_of(file)}, "region": {"startLine": line}}}
    return place | ({"message": {"text": plain(says)}} if says else {})


def refused_at(data):
    """The lines of the files for which a compiler refuses them."""
    files = {Path(file).name: file for file in data["files"]}
    for shape in filter(None, map(PLACE.match, data["lines"])) if data["status"] == WRONG else ():
        if Path(shape[1]).name in files:
            yield location(files[Path(shape[1]).name], max(int(shape[2]), 1))


def result(data):
    """An answer: at its first place, with the others beside it; or at the file's first line, if no place is known."""
    name, level, _ = RULES[data["status"]]
    located = [location(place["file"], place["line"], f"P{place['hart']} {place['says']}") for place in data["places"] if place["file"] and place["line"]]
    first, *others = located or [*refused_at(data)][:1] or [location(data["files"][0], 1)]
    said = [data["short"][0], *(f"P{place['hart']} at pc {place['pc']}: {place['says']}" for place in data["places"]),
            data["run"] and f"a run: {data['run']['sentence']}", data["compiler"]]
    return {"ruleId": name, "ruleIndex": [*RULES].index(data["status"]), "level": level,
            "message": {"text": "\n".join(map(plain, filter(None, said)))},
            "locations": [first], "relatedLocations": [{"id": number, **each} for number, each in enumerate(others, 1)]}


def text(answers):
    """The log of these answers, each as answer.json has it."""
    rules = [{"id": name, "name": name, "shortDescription": {"text": says}, "defaultConfiguration": {"level": level}} for name, level, says in RULES.values()]
    driver = {"name": "ztso queue", "version": (ROOT / "VERSION").read_text().strip(), "rules": rules}
    run = {"tool": {"driver": driver}, "results": [result(data) for data in answers if data["status"] != KEPT]}
    return json.dumps({"$schema": SCHEMA, "version": FORM, "runs": [run]}, indent=1) + "\n"
