"""One call of tools/queue by several compilers and levels, and a file's flags by compile_commands.json."""

import json
import tempfile
import xml.etree.ElementTree
from itertools import permutations
from pathlib import Path
from types import SimpleNamespace

from bring_parts import ROOT, Refused, queue_commands, queue_report, queue_sarif, queue_table
from bring_trials import counting

SOURCE, QUEUE = ROOT / "examples/queues/running_counts.c", "head=q.sent,tail=q.taken,slots=q.word,size=8"
# words of a call, and the compilers and flags that are asked; or what is refused
WAYS = [({}, {"gcc": ("gcc", [])}), ({"compiler": ["clang"]}, {"clang": ("clang", [])}),
        ({"compiler": ["gcc", "clang"]}, {"gcc": ("gcc", []), "clang": ("clang", [])}),
        ({"each": ["gcc,clang", "gcc"], "levels": "0,s", "flag": ["-DX"]},
         {f"{name} {level}": (name, ["-DX", level]) for name in ("gcc", "clang") for level in ("-O0", "-Os")}),
        ({"levels": "0,0"}, {"gcc -O0": ("gcc", ["-O0"])}), ({"levels": "4"}, "and not 4"), ({"levels": ""}, "and not nothing"),
        ({"each": ["gcc,"]}, "--each takes"),
        ({"each": ["gcc"], "files": ["a.litmus"]}, "nothing is compiled here"), ({"levels": "0", "files": ["a.o"]}, "nothing is compiled here"),
        ({"compiler": ["clang"], "files": ["a.litmus"]}, {"clang": ("clang", [])})]
# a file's command, and the flags that it gives
COMMAND = "cc -c -Iinc -I/abs -I up/../in -DA=1 -D B -UC -std=gnu11 -Os -O2 -fno-strict-aliasing -flto -fsanitize=address -fPIC -march=native -Wall " \
          "-include cfg.h -include stdint.h -isystem sys -g -o a.o a.c"
FLAGS = ["-I{0}/inc", "-I/abs", "-I{0}/in", "-DA=1", "-DB", "-UC", "-std=gnu11", "-Os", "-O2", "-fno-strict-aliasing", "-include", "{0}/cfg.h",
         "-include", "stdint.h", "-isystem{0}/sys"]
# a look that one level lacks
LATE = "#ifdef __OPTIMIZE__\n#define FULL SLOTS\n#else\n#define FULL (SLOTS + 1)\n#endif\n#define SLOTS 8"


def ways(count):
    for words, wanted in WAYS:
        asked = SimpleNamespace(**{"compiler": None, "each": None, "levels": None, "flag": [], "queue": ["auto"], "tagged": None, "files": ["a.c"],
                                   "output": None, "report": "kept", **words})
        try:
            found = queue_table.ways(asked)
            came = {name: (way.compiler, way.flag) for name, way in found.items()}
            # what one way does to its queues no other sees, and each has its own folder
            good = came == wanted and len({id(way.queue) for way in found.values()}) == len({way.report for way in found.values()}) == len(found)
        except Refused as refused:
            came = str(refused)
            good = isinstance(wanted, str) and wanted in came
        count.told(f"the ways of {words}", good, str(came))


def worst(count):
    """Each status has its place among them, and beside another one a queue that is kept isn't the worst."""
    count.told("the statuses of a table", {*queue_table.WORST} == queue_sarif.RULES.keys(), str(queue_table.WORST))
    good = all(queue_table.worst({"a": one, "b": other})[0] != 0 for one, other in permutations(queue_table.WORST, 2))
    count.told("the worst status", good and queue_table.worst({"a": 2, "b": 8, "c": 8}) == (8, "worst: status 8, by b, c")
               and queue_table.worst({"a": 0, "b": 0}) == (0, "worst: status 0, by all"))


def commands(count, folder):
    """What compile_commands.json gives, and what it is refused for."""
    folder = Path(folder).resolve()
    for name in ("a.c", "b.c", "c.c", "cfg.h"):
        counting.write(folder, name, "")
    here = {"directory": str(folder), "file": "a.c"}
    rows = [([{**here, "command": COMMAND}], ["a.c"], FLAGS), ([{**here, "arguments": COMMAND.split()}, {**here, "command": "cc -O0"}], ["a.c"], FLAGS),
            ([{**here, "command": "cc -O1"}, {**here, "file": str(folder / "b.c"), "command": "cc -O1"}], ["a.c", "b.c"], ["-O1"]),
            ([{**here, "command": "cc -O1"}], ["a.c", "c.c"], ["-O1"]),
            ([{**here, "command": "cc -O1"}, {**here, "file": "b.c", "command": "cc"}], ["a.c", "b.c"], "have other flags each"),
            ([{**here, "command": "cc"}], ["c.c"], "it has no entry of "), ([], ["a.c"], "it has no entry of "),
            ([{"file": "a.c"}], ["a.c"], "it is no compile_commands.json"), ({"file": "a.c"}, ["a.c"], "it is no compile_commands.json"),
            ([here], ["a.c"], "has neither arguments nor"), ([{**here, "command": "cc '"}], ["a.c"], "has neither arguments nor"),
            ([{**here, "arguments": "cc"}], ["a.c"], "has neither arguments nor"), ([{**here, "arguments": [1]}], ["a.c"], "has neither arguments nor")]
    for entries, files, wanted in rows:
        path = counting.write(folder, "compile_commands.json", json.dumps(entries))
        try:
            came = queue_commands.flags(path, [folder / file for file in files])
            good = came == [each.format(folder) for each in wanted]
        except Refused as refused:
            came, good = str(refused), isinstance(wanted, str) and wanted in str(refused)
        count.told(f"the flags of {files} by {str(entries)[:80]}", good, str(came))


def part(count, _):
    ways(count)
    worst(count)
    with tempfile.TemporaryDirectory() as folder:
        commands(count, folder)


def compiled(count, program):
    """A queue whose look one level lacks, by both compilers; by the flags of a list it is right at each level; and a compiler that isn't there."""
    with tempfile.TemporaryDirectory() as folder:
        text = SOURCE.read_text().replace("#define SLOTS 8", LATE).replace("== SLOTS", "== FULL")
        file, made, junit = counting.write(folder, "mine.c", text), Path(folder, "made"), Path(folder, "junit.xml")
        status, printed, error = counting.run("queue", file, "--queue", QUEUE, "--each", "gcc,clang", "--levels", "0,2", "--report", made, "--junit", junit,
                                              "--program", program)
        rows = [line.split()[:3] for line in printed.splitlines()]
        wanted = [["gcc", "-O0", "8"], ["gcc", "-O2", "0"], ["clang", "-O0", "8"], ["clang", "-O2", "0"], ["worst:", "status", "8,"]]
        count.told("a table of two levels", status == 8 and rows == wanted and printed.endswith("by gcc -O0, clang -O0\n") and not error, printed + error)
        broken = file.read_text().splitlines()[int(printed.partition(f"{file}:")[2].split()[0]) - 1]
        count.told("the place in a table", broken.strip() == "q.word[n % SLOTS] = word;", broken)
        statuses = {each.name: json.loads((each / queue_report.DATA).read_text())["status"] for each in made.iterdir()}
        count.told("the reports of a table", statuses == {"gcc-O0": 8, "gcc-O2": 0, "clang-O0": 8, "clang-O2": 0}, str(statuses))
        cases = [(case.get("name"), len(case)) for case in xml.etree.ElementTree.parse(junit).getroot()]
        count.told("JUnit of a table", cases == [(f"{file} {by} -O{level}", level == 0) for by in ("gcc", "clang") for level in (0, 2)], str(cases))
        entry = {"directory": folder, "file": "mine.c", "command": "cc -DFULL=SLOTS -O0 -c mine.c"}
        listed = counting.write(folder, "compile_commands.json", json.dumps([entry]))
        counting.write(folder, "mine.c", text.replace("#ifdef __OPTIMIZE__", "#ifdef FULL\n#elif defined(__OPTIMIZE__)"))
        for words, statuses in (((), ["8", "0"]), (("--commands", listed), ["0", "0"])):
            status, printed, error = counting.run("queue", file, "--queue", QUEUE, "--levels", "0,2", *words, "--program", program)
            came = [line.split()[2] for line in printed.splitlines()[:2]]
            count.told(f"a table by {words[:1]}", came == statuses and str(status) == max(statuses), printed + error)
        file, sarif = counting.write(folder, "wrong.c", "int x;\n\nint P0(void) { return x }\n"), Path(folder, "sarif")
        status, printed, error = counting.run("queue", file, "--queue", "auto", "--each", "gcc,clang", "--sarif", sarif, "--program", program)
        lines = [each["locations"][0]["physicalLocation"]["region"]["startLine"] for each in json.loads(sarif.read_text())["runs"][0]["results"]]
        count.told("the line of a source that no compiler takes", (status, lines) == (2, [3, 3]) and printed.endswith("by all\n"), f"{lines} {printed}{error}")
        file = counting.write(folder, "mine.c", text)
        status, printed, error = counting.run("queue", file, "--queue", QUEUE, "--compiler", "gcc", "--compiler", "no-such-cc", "--program", program)
        count.told("a table by a compiler that isn't there", status == 2 and "no command no-such-cc" in printed and printed.endswith("by no-such-cc\n"),
                   printed + error)
