"""How tools/page starts: its words, its port, its program."""

import base64
import json
import os
import re
import shutil
import subprocess
import sys
import tempfile
import time
import zlib
from pathlib import Path

from bring_parts import provenance
from page_parts import ROOT, TOOLS, programs
from page_trials.served import SB, Served

NEEDED = ("tools/page", "tools/page_parts", "tools/bring_parts", "tools/from-c", "tools/from-herd", "tools/reference",
          "examples/mappings", "docs/errors.md", "docs/errors-of-queues.md", "docs/page.md", "README.md", "docs/rings.tsv", "litmus")


def part(count, program):
    for name, words, status, said in (
            ("--help", ["--help"], 0, "--port"), ("a port that is none", ["--port", "65536"], 2, "65535"),
            ("a run that is none", ["a0"], 2, "#run="), ("no program", ["--program", "/no/such"], 1, "no such program"),
            ("a folder as a program", ["--program", "/tmp"], 1, "no such program")):
        done = subprocess.run([TOOLS / "page", *words], capture_output=True, text=True, timeout=60, check=False)
        count.told(name, done.returncode == status and said in done.stdout + done.stderr, done)
    served = Served(program)
    words = [TOOLS / "page", "--program", program or programs.REFERENCE, "--port", str(served.port)]
    done = subprocess.run(words, capture_output=True, text=True, timeout=60, check=False)
    count.told("a port that is taken", done.returncode == 1 and "take another one" in done.stderr, done)
    served.end()
    served = Served(program, "https://example.org/ztso/#run=abc")
    address = served.address
    count.told("a whole link, without its address", address.endswith("/#run=abc") and "example" not in address, address)
    unproved(count, served, Path(program or programs.REFERENCE))
    served.end()
    with tempfile.TemporaryDirectory(prefix="ztso-page-") as folder:
        linked(count, folder)
        exercises(count)
        no_library(count, Path(folder))
        written(count, Path(folder, "hosted"))
        found(count, program, Path(folder, "ztso"))
        opened(count, program, Path(folder))
        moved(count, program, Path(folder, "moved"))


def linked(count, folder):
    """The link of a run has the text and the events, and what can't be a run is refused."""
    schedule, text = Path(folder, "a.schedule"), ROOT / "litmus/store-buffering/sb.litmus"
    schedule.write_text("ztso-schedule 1\na0*2\nl0 a1\n")

    def call(*words):
        return subprocess.run([TOOLS / "page", "--link", *words], capture_output=True, text=True, timeout=60, check=False)
    done = call(text, schedule, "--to", "https://example.org/page/#old")
    address, mark, packed = done.stdout.strip().partition("#run=")
    run = json.loads(zlib.decompress(base64.urlsafe_b64decode(packed + "=" * (-len(packed) % 4)), -15)) if mark else {}
    count.told("the link of a run", address == "https://example.org/page/" and run == {
        "text": SB, "buffer": 4, "draw": "uniform", "tokens": "a0*2 l0 a1", "place": None}, done)
    for words, said in (((schedule, schedule), "refused 21"), ((text, text), "refused 27"), ((text, Path(folder, "none")), "No such file"), ((text, schedule, schedule), "and no more")):
        done = call(*words)
        count.told(f"no link of {words}", done.returncode == 2 and said in done.stderr and not done.stdout, done)
    done = subprocess.run([TOOLS / "page", "--to", "https://example.org"], capture_output=True, text=True, timeout=60, check=False)
    count.told("an address without a link", done.returncode == 2 and "--to goes with --link" in done.stderr and not done.stdout, done)


def exercises(count):
    """Each command of docs/exercises.md that makes a link makes one that begins before the first event."""
    lines = [line for line in (ROOT / "docs/exercises.md").read_text().splitlines() if line.startswith("tools/page --link ")]
    count.told("five exercises", len(lines) == 5, lines)
    for line in lines:
        done = subprocess.run(line.split(" "), cwd=ROOT, capture_output=True, text=True, timeout=60, check=False)
        address, _, packed = done.stdout.strip().partition("#run=")
        run = json.loads(zlib.decompress(base64.urlsafe_b64decode(packed + "=" * (-len(packed) % 4)), -15)) if packed else {}
        count.told(line, (address, run.get("text"), run.get("tokens")) == (line.split(" ")[-1], (ROOT / line.split(" ")[2]).read_text(), ""), done)


def no_library(count, folder):
    """What is said where rustc has no library for WebAssembly: one command, by whether there is rustup."""
    tools = folder / "tools"
    tools.mkdir()
    (tools / "python3").symlink_to(sys.executable)
    for name, said in (("rustc", "on Debian 13 `apt-get install cargo "), ("rustup", "`rustup target add wasm32-unknown-unknown`, or ")):
        (tools / name).write_text("#!/bin/sh\necho /none\n")
        (tools / name).chmod(0o755)
        done = subprocess.run([ROOT / "scripts/static-page", folder / "no-page"], env=os.environ | {"PATH": str(tools)}, capture_output=True,
                              text=True, timeout=60, check=False)
        wanted = f"static-page: rustc has no library for wasm32-unknown-unknown: {said}"
        count.told(f"no library, with {name}", done.returncode == 1 and done.stderr.startswith(wanted) and done.stderr.count("\n") == 1, done)


def unproved(count, served, program):
    """What the page says of a program that isn't proved, below its head, which a narrow window shows too."""
    said, name = served.shelf()["unproved"], program.relative_to(ROOT) if program.is_relative_to(ROOT) else program.name
    wanted = "" if program == ROOT / provenance.KEPT else f"The program {name}: built by rustc, and nothing is proved of it." if (
        str(name) in provenance.STOCK) else f"The program {name}: the second implementation, of which nothing is proved." if (
        program == programs.REFERENCE) else f"The program {name}: what built it isn't known, so nothing of it is taken as proved."
    count.told("what is said of the program", said == wanted, said)
    page, sheet = (served.request("GET", served.own + file)[1].decode() for file in ("", "page.css"))
    rules = re.findall(r"[^{}]*#built[^{}]*\{([^}]*)\}", sheet)
    good = '</header>\n<p id="built" hidden></p>' in page and rules and not any("display" in rule or "visibility" in rule for rule in rules)
    count.told("it stands below the head, at any width", good, rules)


def written(count, top):
    """The folder that scripts/static-page writes, of a program that was compiled before."""
    def write(*words):
        return subprocess.run([ROOT / "scripts/static-page", *words], capture_output=True, text=True, timeout=60, check=False)
    top.mkdir()
    wasm, out, other = top / "some.wasm", top / "out", top / "other"
    wasm.write_bytes(b"\0asm")
    other.mkdir()
    (other / "mine").write_text("kept")
    for name, done, status, said in (
            ("static-page --help", write("--help"), 0, "OUT"),
            ("a folder without a name", write(), 2, "OUT"),
            ("a program that isn't there", write("--wasm", top / "none", out), 2, "no such file"),
            ("a folder that has something else", write("--wasm", wasm, other), 2, "name another folder"),
            ("a place that isn't there", write("--wasm", wasm, top / "no/such"), 1, "No such file")):
        words = done.stdout + done.stderr
        count.told(name, done.returncode == status and said in words and "Traceback" not in words, done)
    for name in ("a folder is written", "and written anew"):
        done = write("--wasm", wasm, out)
        page = (out / "index.html").read_text()
        good = '<p id="unproved">Runs in your browser. The proofs are of the sources: <a href="guide.html#' in page
        good = good and "default-src 'none'" in page
        files = (out / "ztso.wasm").read_bytes() == b"\0asm" and not (out / "page.html").exists()
        guide = (out / "guide.html").read_text()
        files = files and 'id="the-page-by-a-link">' in guide and '<a href="./#run=' in guide
        files = files and "![" not in (out / "project.html").read_text()
        count.told(name, done.returncode == 0 and good and files, done)
    left = sorted(path.name for path in top.iterdir())
    count.told("nothing is left beside it, and nothing lost", left == ["other", "out", "some.wasm"] and (other / "mine").exists(), left)


def moved(count, program, top):
    """The page in another folder, with what it needs and nothing else, as an installation has it."""
    for name in NEEDED:
        source, target = ROOT / name, top / name
        target.parent.mkdir(parents=True, exist_ok=True)
        if source.is_dir():
            shutil.copytree(source, target, ignore=shutil.ignore_patterns("__pycache__"))
        else:
            shutil.copy2(source, target)
    before = sorted(top.rglob("*"))
    # as an installed tool starts, which writes no compiled modules
    served = Served(program or programs.REFERENCE, page=top / "tools/page", cwd="/", PYTHONDONTWRITEBYTECODE="1")
    try:
        status, answer = served.ask("test", text=SB)
        herd = served.ask("herd", text=(ROOT / "examples/herd/LB+typed.litmus").read_text())[1]
        good = status == 200 and answer["title"] == "SB" and "notes" in herd and len(served.shelf()["tests"]) > 50
        count.told("it runs where it is installed", good, answer)
    finally:
        served.end()
    count.told("and leaves nothing there", sorted(top.rglob("*")) == before)
    done = subprocess.run([top / "tools/page"], capture_output=True, text=True, timeout=60, check=False)
    count.told("there is no program there", done.returncode == 1 and "name it by --program" in done.stderr, done)


def script(path, text):
    path.write_text(f"#!/bin/sh\n{text}\n")
    os.chmod(path, 0o755)
    return path


def found(count, program, stand_in):
    """A program that has `find` and `chart --memory`: a stand-in, which finds nothing where it has a buffer of one or two,
    and hands on what else it is asked."""
    served = Served(script(stand_in, f"""case "$* " in
        'find --buffer 1 '*) echo 'ztso: all 23 states seen, none shows it' >&2; exit 1 ;;
        'find --buffer 2 '*) echo 'ztso: cut at 100 states' >&2; exit 5 ;;
        'find --buffer 16 '*) printf 'ztso-schedule 1\\na0*2000\\n' ;;
        find*) printf 'ztso-schedule 1\\na0*2 a1*2 l0 l1\\n' ;;
        chart*\\ --memory\\ *) echo 'rows of memory' ;;
        *) exec '{program or programs.REFERENCE}' "$@" ;;
        esac"""))
    try:
        can, said = (served.shelf()[name] for name in ("can", "unproved"))
        count.told("nobody knows what built a stand-in", said == "The program ztso: what built it isn't known, so nothing of it is taken as proved.", said)
        count.told("a program's commands are known", can["find"] and can["memory"], can)
        answer = served.ask("chart", text=SB, buffer=4, tokens="a0", rows="memory")[1]
        count.told("a picture of some rows", "rows of memory\n" in (answer.get("svg"), answer.get("text")), answer)
        answer = served.ask("find", text=SB, buffer=4)[1]
        count.told("the shortest schedule", answer == {"tokens": "a0*2 a1*2 l0 l1"}, answer)
        answer = served.ask("find", text=SB, buffer=16)[1]
        count.told("one of just 2,000 events", answer == {"tokens": "a0*2000"}, answer)
        answer = served.ask("find", text=SB, buffer=1)[1]
        count.told("how many states had none", answer == {"states": 23, "cut": False}, answer)
        answer = served.ask("find", text=SB, buffer=2)[1]
        count.told("and how many the search was cut at", answer == {"states": 100, "cut": True}, answer)
    finally:
        served.end()


def opened(count, program, folder):
    """The browser that --open starts gets an address that leads to the page once."""
    given = folder / "given"
    browser = script(folder / "browser", f"echo \"$1\" > '{given}.new'; mv '{given}.new' '{given}'")
    served = Served(program, "--open", BROWSER=str(browser))
    try:
        until = time.monotonic() + 20
        while not given.exists() and time.monotonic() < until:
            time.sleep(0.02)
        path = "/" + given.read_text().strip().split("/", 3)[3]
        count.told("the address for the browser isn't the page's", served.secret not in path, path)
        status, _, reply = served.request("GET", path)
        count.told("it leads to the page", (status, reply.getheader("Location")) == (303, served.own), status)
        count.told("and no second time", served.request("GET", path)[0] == 404)
    finally:
        served.end()
