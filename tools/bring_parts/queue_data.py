"""What scripts read of an answer about queues: answer.json, whose form docs/answer.schema.json has."""

import json

from bring_parts import junit, plain
from bring_parts.queue_case import BROKEN, FENCES, KEPT, NOT_ALL, NOT_SHOWN, OTHER, OWN_FAULT, STUCK, WRONG
from bring_parts.queue_said import GoesOn, HartNotShown, NoBytes, OfShares, Records, RecordsNotShown

# the form's version: another number where a key is taken away, or means something else
VERSION = 1
SHOWN, UNSHOWN, UNASKED = "shown", "not shown", "not asked"
# what the program's verdict has of a queue that may stand still
STANDS = "not shown to go on"
# what the program says of bytes of which it is shown, and of those of which it isn't
USES = {"written": ("written after", "written"), "read": ("read before", "read"), "once": ("read at most once", "read at most once")}


def queues_of(case, given):
    """The queues by their names, each with its description as tools/certify takes it."""
    return [{"name": case.places.called(queue).rpartition(" (")[0], "sender": queue.sender, "receiver": queue.receiver, "size": queue.size,
             "width": queue.width, "described": each} for queue, each in zip(case.queues, given)]


def bounds_of(case):
    """Within how many of its instructions a party publishes or takes, or finds that it has to wait."""
    return [{"queue": each.queue, "hart": each.hart, "moves": each.moves, "finds": each.finds, "instructions": each.within} for each in case.said.all(GoesOn)]


def shares_of(case):
    """The ranges of the bytes that harts may share, or None where that isn't shown, and whether these are of queues and inputs alone; or None of both."""
    if not case.said.one(OfShares):
        return None
    return {"bytes": case.said.shared(), "nothing_else": SHOWN if case.shares_queues_alone() else UNSHOWN}


def of_bytes(case, name):
    """Whether the bytes of records are shown that were asked for."""
    shown = {each.queue for each in case.said.all(Records) if each.use == USES[name][0]}
    lacks = [*case.said.all(NoBytes), *(each for each in case.said.all(RecordsNotShown) if each.use == USES[name][1])]
    return SHOWN if shown and not lacks else UNSHOWN


def fences_of(case):
    """Whether the fences that are required stand on each way; of states alone that keep the protocol that is known."""
    return UNSHOWN if not case.fences else "found" if all(each.are_all() for each in case.fences) else "missing"


def questions_of(case, asked, of_records):
    """What came of each question. Where the protocol isn't kept nothing else is shown."""
    is_kept = case.status in (KEPT, NOT_ALL, STUCK, FENCES)

    def of(is_asked, is_shown):
        return UNASKED if not is_asked else SHOWN if is_kept and is_shown else UNSHOWN
    protocol = UNSHOWN if case.status == NOT_SHOWN else "broken" if case.status in (BROKEN, OTHER) else SHOWN
    return {"protocol": protocol, "reads": of(True, True), "goes_on": of(not asked.safety, STANDS not in case.kept),
            **{name: of(of_records[name], of_bytes(case, name) == SHOWN) for name in USES},
            "harts": of(asked.of_harts, not case.said.all(HartNotShown)),
            # of these nothing is proved: they are looked for in the certificate's states, and seen in drawn runs
            "fences": UNASKED if not asked.require_fences else fences_of(case),
            "beside": UNASKED if not case.is_auto else "seen" if case.outside else "none seen"}


def of_answer(case, asked, report, of_records, lines):
    """An answer, of which these are all lines."""
    return {"version": VERSION, "status": report.status, "verdict": report.verdict, **report.short.data(), "lines": lines,
            "queues": queues_of(case, report.queues), "bounds": bounds_of(case), "shares": shares_of(case),
            "questions": questions_of(case, asked, of_records), "inits": asked.init, "inputs": asked.input, "files": [str(file) for file in asked.files],
            "asked": report.about.asked(), "program": report.about.judge, "compiler": ", ".join(report.about.compilers) or None,
            "command": report.about.command, "schedule": report.schedule}


def of_refusal(asked, status, said, judge, command):
    """What is refused, or a fault of a tool, in these words."""
    lines = [plain(line) for line in said.split("\n")]
    return {"version": VERSION, "status": status, "verdict": lines[0], "short": lines, "places": [], "run": None, "lines": lines, "queues": [],
            "bounds": [], "shares": None, "questions": {}, "inits": asked.init, "inputs": asked.input, "files": [str(file) for file in asked.files],
            "asked": None, "program": judge, "compiler": None, "command": command, "schedule": None}


def text(data):
    return json.dumps(data, indent=1) + "\n"


def case(data, way=None):
    """The same as JUnit has it."""
    passed = None if data["status"] in (WRONG, OWN_FAULT) else data["status"] == KEPT
    name = " ".join(filter(None, (*data["files"], way or data["compiler"])))
    return junit.Case("queue", name, data["files"][0], passed, data["verdict"], "\n".join(data["short"]))
