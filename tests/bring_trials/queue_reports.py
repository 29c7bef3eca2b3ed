"""The reports of tools/queue, as pages and for scripts, and what an answer says it was asked about."""

import html
import json
import re
import shlex
import shutil
import subprocess
import tempfile
import xml.etree.ElementTree
from html.parser import HTMLParser
from pathlib import Path
from types import SimpleNamespace
from unittest import mock

from bring_parts import REFERENCE, ROOT, provenance, queue_asked, queue_case, queue_data, queue_judged, queue_report, queue_sarif, queue_short
from bring_trials import counting
from page_parts import links

SCHEMA = json.loads((ROOT / "docs/answer.schema.json").read_text())
# of a JSON schema the types, and the words that docs/answer.schema.json has
TYPES = {"string": str, "integer": int, "object": dict, "array": list, "null": type(None)}
KNOWN = {"$schema", "title", "description", "type", "const", "enum", "minimum", "minItems", "items", "properties", "required", "additionalProperties"}
GCC = "riscv64-unknown-elf-gcc 12.2.0 -O2"
OTHER, RING = "head=q_sent,tail=q_taken,slots=q_word,size=8", "head=q_put,tail=q_get,slots=q_slot,size=4"
# a text of examples/queues, its queue and other options; the status, the verdict's beginning, what has its mark in the picture, and the files
LEFT = ["answer.json", "index.html"]
REPORTS = [
    ("running_indices.litmus", RING, (), 0, "kept in every run, and goes on while its harts run", None),
    ("wrong/no_look.litmus", OTHER, (), 8, "broken: hart 0 at pc 28, ", "row 118 loads another byte than was sent; row 104 stored there before"),
    ("wrong/index_first.litmus", OTHER, (), 8, "broken: hart 0 at pc 68, ", "row 29 publishes it; row 56 loads what was there before; row 60 stores the record"),
    ("wrong/both_write.litmus", OTHER, ("--buffer", "1"), 11, "does not keep the protocol described: hart 0 at pc 92, ", " breaks the protocol"),
    ("no_look.litmus", RING, ("--runs", "20", "--length", "60"), 7, "not shown: ", None),
]
# of what each is kept, or isn't, docs/queues.md and progress.md say; of an unkept queue nothing else is shown
SURE = {"protocol": "shown", "reads": "shown"}
QUESTIONS_OF = [
    ("records.litmus", "head=q.sent,tail=q.taken,slots=q_record_0_time,size=4,width=12", ("--written", "all", "--read", "all"), 0,
     {**SURE, "goes_on": "shown", "written": "shown", "read": "shown"}),
    ("half_written.litmus", "head=head,tail=tail,slots=slot,size=2,width=8", ("--written", "all", "--read", "all", "--require-fences"), 9,
     {**SURE, "goes_on": "shown", "written": "not shown", "read": "not shown", "fences": "missing"}),
    ("no_volatile.litmus", "head=head,tail=tail,slots=slot,size=4", ("--require-fences", "--safety"), 12, {**SURE, "fences": "missing"}),
    ("records.litmus", "head=q.sent,tail=q.taken,slots=q_record_0_time,size=4,width=12", ("--require-fences", "--of-harts"), 0,
     {**SURE, "goes_on": "shown", "fences": "found", "harts": "shown"}),
    ("wrong/off_by_one.litmus", OTHER, ("--written", "all"), 8, {"protocol": "broken", "reads": "not shown", "goes_on": "not shown", "written": "not shown"}),
]
# a line of a source as a stranger may write it
LINE, STRANGE = "q.word[n % SLOTS] = word", "<script>a</script> & <b>"
HEAD = "RISCV ring\n(* tools/from-{} *)\n{{"
CLANG, RUSTC = "Debian clang version 14.0.6", "rustc 1.63.0 --target riscv32ia.json -C opt-level=2"
QUESTIONS = [
    (["a/ring.c"], "c ring.c --compiler gcc\n   riscv64-unknown-elf-gcc (12.2.0-14+deb12u1) 12.2.0\n   -O2 -g\n   -Os", True,
     "ring.c as riscv64-unknown-elf-gcc 12.2.0 -Os compiles it"),
    (["a.litmus"], f"c ring.c --compiler clang --fences none\n   {CLANG}\n   -O2", False,
     "a.litmus (by its comment ring.c as clang 14.0.6 -O2 compiles it, without its fences)"),
    (["ring.c"], f"c ring.c --compiler clang --mapping mine.h --fences full\n   {CLANG}\n   -O2", True,
     "ring.c as clang 14.0.6 -O2 compiles it, by the mapping mine.h, without its fences that aren't full"),
    (["ring.c"], f"c ring.c --compiler clang --fences none --init setup --init more --input 0x10000000:8 --lines\n   {CLANG}\n   -O2", True,
     "ring.c as clang 14.0.6 -O2 compiles it, without its fences, after setup() and more(), with any value in 0x10000000:8"),
    (["p.cpp", "c.rs"], f"object p.cpp c.rs --compiler clang\n   {CLANG}\n   -O2\n   {RUSTC}", True,
     "p.cpp and c.rs as clang 14.0.6 -O2 and rustc 1.63.0 -C opt-level=2 compile them"),
    (["ring.o"], "object ring.o\n   ring.o: by GNU C17 12.2.0 -mabi=ilp32 -O1", True, "ring.o as GNU C17 12.2.0 -O1 compiles it"),
    (["o.litmus"], "object ring.o\n   ring.o: by GNU C17 12.2.0 -O1", False, "o.litmus (by its comment ring.o as GNU C17 12.2.0 -O1 compiles it)"),
    (["b.litmus"], "herd of another tool", False, "b.litmus"), (["b.litmus"], f"c don't.c\n {CLANG}", False, "b.litmus"),
]


def is_of(value, name):
    return isinstance(value, TYPES[name]) and not isinstance(value, bool)


def wrong_in(value, schema, at="answer"):
    """What of a value hasn't the form of a schema, each with where it is."""
    kinds = schema.get("type", [])
    kinds = [kinds] if isinstance(kinds, str) else kinds
    if unknown := schema.keys() - KNOWN:
        yield f"{at}: this check doesn't know {unknown}"
    if kinds and not any(is_of(value, name) for name in kinds):
        yield f"{at} is {value!r}, and no {kinds}"
    if "const" in schema and value != schema["const"] or "enum" in schema and value not in schema["enum"]:
        yield f"{at} is {value!r}"
    if isinstance(value, int) and value < schema.get("minimum", value):
        yield f"{at} is {value}"
    if isinstance(value, list):
        yield from [f"{at} has {len(value)} parts"] * (len(value) < schema.get("minItems", 0))
        for number, part in enumerate(value):
            yield from wrong_in(part, schema.get("items", {}), f"{at}[{number}]")
    if isinstance(value, dict):
        yield from of_keys(value, schema, at)


def of_keys(value, schema, at):
    parts = schema.get("properties", {})
    yield from (f"{at} has no {key}" for key in schema.get("required", ()) if key not in value)
    for key, part in value.items():
        if key in parts:
            yield from wrong_in(part, parts[key], f"{at}.{key}")
        elif schema.get("additionalProperties") is False:
            yield f"{at} has {key}"


class Page(HTMLParser):
    """A page's tags and links."""

    def __init__(self, text):
        super().__init__()
        self.tags, self.links, self.handlers = set(), [], []
        self.feed(text)

    def handle_starttag(self, tag, attrs):
        self.tags.add(tag)
        self.links += [value for name, value in attrs if name in ("href", "src")]
        self.handlers += [name for name, _ in attrs if name.startswith("on")]


def tried(count, folder, program, row):
    """A report of one text: its files, its keys and its page."""
    name, queue, options, status, verdict, marks = row
    text = counting.write(folder, Path(name).name, (ROOT / "examples/queues" / name).read_text().replace(LINE, STRANGE))
    made, before = Path(folder, "made"), len([*Path(folder).iterdir()])
    sarif, junit = Path(folder, "ci/sarif"), Path(folder, "ci/junit")
    ended, printed, error = counting.run("queue", text, "--queue", queue, *options, "--lines", "--report", made, "--sarif", sarif, "--junit", junit,
                                         "--program", program)
    count.told(f"tools/queue --report of {name}", ended == status and not error and len([*Path(folder).iterdir()]) == before + 2, printed + error)
    data, page = json.loads((made / "answer.json").read_text()), (made / "index.html").read_text()
    own = data["run"] and data["run"]["schedule"]
    files = sorted([*LEFT, *(f"{text.stem}.{each}" for each in ("litmus", "certificate", *(("schedule", "svg") if marks else ()),
                                                               *["shown.schedule"] * bool(own)))])
    count.told(f"the files of the report of {name}", sorted(each.name for each in made.iterdir()) == files, str([*made.iterdir()]))
    wrong, described = [*wrong_in(data, SCHEMA)], [each["described"] for each in data["queues"]]
    count.told(f"answer.json of {name}", not wrong and data["status"] == status and data["verdict"].startswith(verdict)
               and data["lines"] == printed.splitlines() and printed.startswith(f"{data['verdict']}, under Ztso (") and data["compiler"] == GCC
               and f"asked: {data['asked']}" in data["lines"] and f"command: {data['command']}" in data["lines"]
               and described == [f"--queue {queue}"] and bool(data["schedule"]) == bool(marks), f"{wrong} {data}")
    for_ci(count, text, data, sarif, junit)
    read = Page(page)
    count.told(f"the page of {name}", not read.tags & {"script", "b"} and not read.handlers and set(read.links) == {*files} - {"index.html"}
               and html.escape(data["lines"][0]) in page and (not marks or f"{marks}." in page), page)
    if marks:
        xml.etree.ElementTree.fromstring((made / f"{text.stem}.svg").read_text())
        count.told(f"the marks of {name}", page.count("class='mark'") == 1 + marks.count(";")
                   and (made / f"{text.stem}.schedule").read_text() == data["schedule"], page)
        count.told(f"the run of {name}", not own or (made / f"{text.stem}.shown.schedule").read_text() == own, str(own))
        run = links.run_of(text.read_text(), own or data["schedule"], int(dict(zip(options[::2], options[1::2])).get("--buffer", links.BUFFER)))
        count.told(f"the link of {name}'s run", f"--open {html.escape(shlex.quote(run))}<" in page, run)
    if name == "wrong/no_look.litmus":
        count.told("a strange line of a source on a page", page.count("&lt;script&gt;a&lt;/script&gt; &amp; &lt;b&gt;") > 2, page)
    shutil.rmtree(made)
    shutil.rmtree(sarif.parent)


def located(result):
    """The places of a result of SARIF."""
    places = [place["physicalLocation"] for place in [*result["locations"], *result["relatedLocations"]]]
    return [(place["artifactLocation"]["uri"], place["region"]["startLine"]) for place in places]


def at_lines(count, folder, program):
    """SARIF leads to the lines of the source beside a text."""
    source, sarif = ROOT / "examples/queues/wrong/off_by_one.c", Path(folder, "off_by_one.sarif")
    counting.run("queue", source.with_suffix(".litmus"), "--queue", OTHER, "--sarif", sarif, "--program", program)
    result, = json.loads(sarif.read_text())["runs"][0]["results"]
    lines = source.read_text().splitlines()
    came = [lines[line - 1].strip() for _, line in located(result)]
    # the store of the record, and the look before it
    count.told("the lines of SARIF", came[0].startswith("q.word[n % SLOTS] = ") and "load_explicit(&q.taken" in came[1]
               and all(place.endswith("examples/queues/wrong/off_by_one.c") for place, _ in located(result)), str(result))


def for_ci(count, text, data, sarif, junit):
    """SARIF has the status' rule, and nothing of a queue that is kept; JUnit has one case."""
    run, = json.loads(sarif.read_text())["runs"]
    rules = [rule["id"] for rule in run["tool"]["driver"]["rules"]]
    came = [(rules[each["ruleIndex"]], each["ruleId"], each["message"]["text"].split("\n")[0], located(each)) for each in run["results"]]
    rule = queue_sarif.RULES[data["status"]][0]
    # the source isn't beside this text
    wanted = [(rule, rule, data["short"][0], [(text.as_uri(), 1)])] if data["status"] else []
    count.told(f"SARIF of {text.name}", came == wanted and len(rules) == len(SCHEMA["properties"]["status"]["enum"]), f"{came} {wanted}")
    case, = xml.etree.ElementTree.parse(junit).getroot()
    told = [(part.tag, part.get("message"), part.text.split("\n")) for part in case]
    failed = [("failure", data["verdict"], data["short"])] if data["status"] else []
    count.told(f"JUnit of {text.name}", told == failed and str(text) in case.get("name"), str(told))


def of_questions(count, folder, program):
    """What came of each question, as the pages' answers of these texts say it."""
    for name, queue, words, status, wanted in QUESTIONS_OF:
        made = Path(folder, "asked")
        ended, printed, error = counting.run("queue", ROOT / "examples/queues" / name, "--queue", queue, *words, "--report", made, "--program", program)
        data = json.loads((made / "answer.json").read_text())
        wrong = [*wrong_in(data, SCHEMA)]
        came = {key: value for key, value in data["questions"].items() if value != "not asked"}
        count.told(f"the questions of {name} {' '.join(words)}", (ended, came) == (status, wanted) and not wrong, f"{wrong} {ended} {came} {printed}{error}")
        shutil.rmtree(made)


def of_refusals(count, folder, program):
    """What is refused leaves answer.json, SARIF and JUnit too; a fault of tools/certify has its own status there."""
    text = ROOT / "examples/queues/running_indices.litmus"
    report, sarif, junit = (Path(folder, name) for name in ("refused", "refused.sarif", "refused.xml"))
    for status, words, said in ((2, ("--queue", "head=q_none,tail=q_get,slots=q_slot,size=4"), "q_none"), (2, (), "say where the queue lies"),
                                (2, ("--queue", RING, "--flag=-O0"), "a litmus text stands alone"), (2, ("--queue", RING, "--written", "4-"), "--written takes all"),
                                (2, ("--queue", RING, "--levels", "0"), "nothing is compiled here"),
                                (2, ("--queue", RING, "--commands", text), "it is no compile_commands.json")):
        ended, printed, error = counting.run("queue", text, *words, "--report", report, "--sarif", sarif, "--junit", junit, "--program", program)
        data = json.loads((report / "answer.json").read_text())
        wrong = [*wrong_in(data, SCHEMA)]
        count.told(f"the report where {said} is refused", (ended, data["status"], printed) == (status, status, "") and not wrong and said in data["verdict"]
                   and error.splitlines() == [f"queue: {data['verdict']}", *data["lines"][1:]] and [each.name for each in report.iterdir()] == ["answer.json"],
                   f"{wrong} {data} {error}")
        result, = json.loads(sarif.read_text())["runs"][0]["results"]
        case, = xml.etree.ElementTree.parse(junit).getroot()
        count.told(f"SARIF and JUnit where {said} is refused", result["ruleId"] == "refused" and case[0].tag == "error" and said in case[0].get("message"),
                   str(result))
        shutil.rmtree(report)
    lines = ["mine.c: gcc fails", "In file included from mine.c:1:", "/usr/mine.c:7:2: error: a", "other.c:3:1: error: b"]
    data = queue_data.of_refusal(SimpleNamespace(files=["a/mine.c"], init=["setup"], input=[]), 2, "\n".join(lines), "ztso", "queue")
    result, = json.loads(queue_sarif.text([data]))["runs"][0]["results"]
    count.told("where SARIF puts a compiler's error", located(result) == [("a/mine.c", 7)], str(result))
    fault = queue_judged.ToolFault("a fault of this tool")
    with mock.patch.object(queue_judged, "ran", lambda *words, does=None: (queue_case.OWN_FAULT, "", "certify: a fault of this tool")):
        question = queue_judged.Question(SimpleNamespace(lines=False, seconds=None), Path(folder), program, text, None, None, None)
        try:
            question.certified([], {})
        except queue_judged.ToolFault as refused:
            fault = refused
    data = queue_data.of_refusal(SimpleNamespace(files=[text], init=[], input=[]), fault.status, str(fault), "ztso", "queue")
    count.told("a fault of tools/certify", data["status"] == 70 and data["verdict"] == "a fault of this tool" and not [*wrong_in(data, SCHEMA)]
               and queue_data.case(data).passed is None, str(data))
    wrongs = [{**data, **other} for other in ({"status": 3}, {"places": [{}]}, {"version": True}, {"verdict": 1}, {"short": []}, {"more": 1})]
    count.told("what the schema refuses", all([*wrong_in(each, SCHEMA)] for each in wrongs) and [*wrong_in({}, SCHEMA)])


def refused(count, folder, program):
    """Folders that no report is written to: nothing is printed, and nothing is left."""
    Path(folder, "full").mkdir()
    file = counting.write(folder, "full/file", "text")
    for place, wanted in ((file.parent, "a report needs a new or empty folder, and this one isn't empty"), (file / "below", f"{file} is no folder")):
        ended, printed, error = counting.run("queue", ROOT / "examples/queues/running_indices.litmus", "--queue", RING, "--report", place,
                                             "--program", program)
        count.told(f"tools/queue --report {place}", (ended, printed, error) == (2, "", f"queue: {place.resolve()}: {wanted}\n"), printed + error)
    count.told("what refused reports leave", [each.name for each in file.parent.iterdir()] == ["file"], str([*file.parent.iterdir()]))


def jumped_to(count, folder):
    """Lines of an answer lead to the source's file where it is found, and are left else."""
    ring, other = (counting.write(folder, name, "") for name in ("ring.c", "other.h"))
    text = HEAD.format("c ring.c --compiler gcc")
    two = HEAD.format("object mine.cpp ring.c --compiler gcc")
    for files, given, is_source, line, wanted in (
            ([ring], text, True, "    P0 23: a = b: c", f"{ring}:23: P0: a = b: c"),
            ([Path(folder, "ring.litmus")], text, False, "    P1 23: a", f"{ring}:23: P1: a"),
            ([Path(folder, "none/ring.litmus")], text, False, "    P1 23: a", "    P1 23: a"),
            ([ring], text, True, "    P0 other.h:4: a", f"{other}:4: P0: a"),
            ([ring], text, True, "    P0 away.h:4: a", "    P0 away.h:4: a"),
            ([other, ring], two, True, "    P0 other.h:4: a", f"{other}:4: P0: a"),
            ([other, ring], two, True, "    P1 12: a", f"{ring}:12: P1: a"),
            ([ring], text, True, "    P0 at 0x1c (no debugging information)", "    P0 at 0x1c (no debugging information)")):
        came = queue_asked.to_source(queue_asked.sources_of(files, given, is_source), line)
        count.told(f"where {line} leads of {[each.name for each in files]}", came == wanted, came)


def undrawn(count, program):
    """A run that the program draws no picture of has its schedule alone."""
    text = ROOT / "examples/queues/wrong/no_look.litmus"
    about = queue_asked.About.of([text], text.read_text(), False, program, [STRANGE])
    report = queue_report.Report(8, "broken", about, [], text, text, "ztso-schedule 1\na1*20000\n", 4, queue_short.Short("broken"))
    picture, run = queue_report.drawn_in(report, program)
    count.told("a run of too many entries on a page", picture is None and "<p>There is no picture: " in run and "a1*20000" in run, run)
    page = queue_report.page_of(report, ["broken"], run, [])
    count.told("a strange command on a page", STRANGE in about.command and not Page(page).tags & {"script", "b"}, page)


def made_by_rule(count, folder, program):
    """The page's rule for make ends well where the queue is kept, and else not."""
    rule = re.search(r"^queues: ; .*$", (ROOT / "docs/queues.md").read_text(), re.M)[0]
    for name, is_kept in (("running_indices", True), ("no_look", False)) if shutil.which("make") else ():
        asked = f"{ROOT}/tools/queue {ROOT}/examples/queues/{name}.litmus --queue {RING} --program {program}"
        file = counting.write(folder, "Makefile", re.sub(r"ztso/tools/queue .*", asked, rule) + "\n")
        ended = subprocess.run(["make", "-f", file], stdin=subprocess.DEVNULL, capture_output=True, text=True, check=False)
        count.told(f"make queues of {name}", (ended.returncode == 0) == is_kept and "all of it: --lines" in ended.stdout, ended.stdout + ended.stderr)


def of_rustc(count, folder, program):
    """A program that rustc built says so wherever it lies, also in the place of the proved one."""
    for name in ("scripts", "crates/ztso/out"):
        Path(folder, name).mkdir(parents=True)
    for name in ("crates.txt", "HANDLES"):
        counting.write(folder, name, "")
    build = Path(shutil.copy(ROOT / "scripts/build", Path(folder, "scripts/build")))
    for content, is_of_rustc in ((b"\x7fELF", False), (b"\x7fELF" + provenance.OF_RUSTC, True)):
        kept = counting.write(folder, provenance.KEPT, content)
        kept.chmod(0o755)
        status = subprocess.run([build, "--is-current"], check=False).returncode
        count.told("whether the proved program is there", status == is_of_rustc, str(status))
        with mock.patch.object(provenance, "ROOT", Path(folder)):
            kind = provenance.kind_of(kept)
        count.told("what built a program in the place of the proved one", kind == (provenance.BY_RUSTC if is_of_rustc else provenance.PROVED), kind)
    if program in [ROOT / name for name in provenance.STOCK]:
        count.told("what rustc's program says of itself", provenance.OF_RUSTC in program.read_bytes(), str(program))


def part(count, program):
    for files, comment, is_source, wanted in QUESTIONS:
        came = queue_asked.question(files, HEAD.format(comment), is_source)
        count.told(f"what is asked of {files}", came == wanted, came)
    count.told("what the second implementation is called", queue_asked.judge(REFERENCE) == f"ztso: {queue_asked.SECOND}", queue_asked.judge(REFERENCE))
    with tempfile.TemporaryDirectory() as folder:
        other = counting.write(folder, "ztso", "another")
        count.told("what an unknown program is called", queue_asked.judge(other) == "ztso: what built it isn't known, so nothing of it is taken as proved",
                   queue_asked.judge(other))
        for row in REPORTS:
            tried(count, folder, program, row)
        refused(count, folder, program)
        of_questions(count, folder, program)
        of_refusals(count, folder, program)
        at_lines(count, folder, program)
        jumped_to(count, folder)
        made_by_rule(count, folder, program)
    undrawn(count, program)
    with tempfile.TemporaryDirectory() as folder:
        of_rustc(count, folder, program)
