"""An answer about queues as a folder to keep: a page without scripts, the same for scripts as JSON, and the files that belong to it. The
picture of its schedule's run is the program's, with the sources' lines; two of its rows are marked."""

import os
import re
import shlex
import shutil
from dataclasses import dataclass
from html import escape
from pathlib import Path
from urllib.parse import quote

from bring_parts import Refused, c_lines, plain, put, queue_data, text_of, texts, typed
from bring_parts.queue_asked import About
from bring_parts.queue_short import Short
from page_parts import links

import schedules
from machine import Machine

PAGE, DATA = "index.html", "answer.json"
# the files of the program's schedule, and of the run of which the answer tells
SCHEDULE, SHOWN = ".schedule", ".shown.schedule"
STEPPER = "page"
NEWLINE, WRAPS = "\n", " class='wraps'"
# the last event of a run that breaks the protocol, and of one that loses a record, and what is stored where it loads or stores
BREAKS, LOSES, BEFORE = "breaks the protocol", "loads another byte than was sent", "stored there before"
OTHER_PROTOCOL = 11
# what an event that loads or stores is called, its address, and its bytes if they aren't 4
ACCESS = re.compile(r"(?P<kind>load|store|amo)(?P<bytes>[12])? [0-9]+ (?P<at>[0-9]+) ")
# a verdict's kind by the status: kept, broken, and what isn't shown
KINDS = {0: "kept", 8: "broken"}
STYLE = """
:root{color-scheme:light dark}
body{font:16px/1.5 system-ui,sans-serif;max-width:100rem;margin:2rem auto;padding:0 1rem}
h1{font-size:1.4rem;border-left:.4rem solid #9a6700;padding-left:.8rem}
h1.kept{border-color:#1a7f37}h1.broken{border-color:#cf222e}
h2{font-size:1.1rem;margin-top:2rem}
pre,.picture{overflow:auto;border:1px solid #8c959f;border-radius:4px;padding:.8rem}
pre{font:13px/1.5 ui-monospace,'DejaVu Sans Mono',Menlo,Consolas,monospace}
pre.wraps{white-space:pre-wrap;overflow-wrap:anywhere}
dt{font-weight:bold}dd{margin:0 0 .5rem;overflow-wrap:anywhere}
"""


@dataclass(frozen=True)
class Report:
    """What a report has: the status, the verdict without of what it is, what was asked, the queues' descriptions, the files, the answer's
    schedule, or None, the stores that a buffer holds, and the answer for a person."""
    status: int
    verdict: str
    about: About
    queues: list
    text: Path
    certificate: Path
    schedule: str
    buffer: int
    short: Short

    def drawn(self):
        """The schedule of the run that is drawn: that of which the answer tells, or the program's."""
        return self.short.shown.schedule if self.short.shown else self.schedule


def check_folder(folder):
    """Refuses a folder for a report that is there and isn't empty, or can't be made."""
    folder = Path(folder).resolve()
    near = next(each for each in (folder, *folder.parents) if each.exists())
    if not near.is_dir():
        raise Refused(f"{folder}: {near} is no folder")
    if not os.access(near, os.W_OK):
        raise Refused(f"{folder}: nothing may be written to {near}")
    if near == folder and any(folder.iterdir()):
        raise Refused(f"{folder}: a report needs a new or empty folder, and this one isn't empty")


def accesses_in(test, buffer, steps):
    """Each load, store and AMO of a run: its row in the picture, its first byte, the one after its last, and whether it is no load."""
    machine = Machine(test, buffer)
    state, row = machine.opening, 0
    for event, _ in steps:
        outcome, is_entry, state = machine.step(state, event)
        row += is_entry
        if shape := ACCESS.match(outcome):
            yield row, int(shape["at"]), int(shape["at"]) + int(shape["bytes"] or 4), shape["kind"] != "load"


def marks_of(test, report):
    """The rows that are marked: what the answer tells of; else what breaks the protocol, or loses a record, which is the schedule's last event, and the last
    store before it to any of its bytes."""
    if report.short.shown:
        return report.short.shown.rows()
    accesses = list(accesses_in(test, report.buffer, schedules.read_steps(report.schedule)))
    if not accesses:
        return {}
    row, begin, end, _ = accesses[-1]
    before = [other for other, first, last, stores in accesses[:-1] if stores and first < end and begin < last]
    return {row: BREAKS if report.status == OTHER_PROTOCOL else LOSES, **{other: BEFORE for other in before[-1:]}}


def picture_of(report, program):
    """The picture of the schedule's run, with the marks, and these."""
    test = texts.read(text_of(report.text), report.text).test
    drawn = c_lines.picture(program, report.text, test, report.drawn(), report.buffer, ["--memory", "--svg"])
    marks = marks_of(test, report)
    return c_lines.marked_svg(drawn, marks), marks


def pre(text, is_wide=True):
    return f"<pre{'' if is_wide else WRAPS}>{escape(text)}</pre>"


def stepped(report):
    """The page's part with the command that opens the schedule's run in a browser, or nothing of one that is too long for a link."""
    link = links.run_of(text_of(report.text), report.drawn(), report.buffer)
    if len(link) > links.LONGEST:
        return ""
    return f"<p>This steps through it in your browser:</p>\n{pre(f'{typed(STEPPER)} --open {shlex.quote(link)}', is_wide=False)}\n"


def run_of(report, drawn):
    """The page's part with the schedule's run, below its picture or what is said in its place."""
    title = "takes a record too early" if report.short.shown else "breaks it" if report.status == OTHER_PROTOCOL else "loses a record"
    suffix = SHOWN if report.short.shown else SCHEDULE
    call = escape(f"ztso chart {report.text.name} {report.text.stem}{suffix} --buffer {report.buffer}")
    return (f"<h2>A run that {title}</h2>\n{drawn}\n{pre(report.drawn(), is_wide=False)}\n"
            f"<p>In this folder <code>{call}</code> draws it.</p>\n{stepped(report)}")


def drawn_in(report, program):
    """The picture of the schedule's run as a file's text, or None, and the page's part with it."""
    try:
        picture, marks = picture_of(report, program)
    except Refused as refused:
        # the program draws no run of more than 10,000 entries
        return None, run_of(report, f"<p>There is no picture: {escape(plain(str(refused)))}</p>")
    named = "; ".join(f"row {row} {words}" for row, words in marks.items())
    return picture, run_of(report, f"<p>Marked: {named}.</p>\n<div class='picture'>{picture.partition('?>')[2]}</div>")


def page_of(report, lines, run, files):
    """The page; `run` is its part with a run, or empty. All that it shows of strangers is escaped, except the picture, which escapes it itself."""
    verdict = escape(lines[0])
    facts = [("Asked", report.about.asked()), ("Command", report.about.command), *(("Queue", each) for each in report.queues),
             ("Exit status", str(report.status))]
    shown = "".join(f"<dt>{name}</dt><dd>{escape(plain(fact))}</dd>\n" for name, fact in facts)
    links = "".join(f'<li><a href="{quote(name)}">{escape(name)}</a></li>\n' for name in files)
    return f"""<!DOCTYPE html>
<html lang="en">
<head>
<meta charset="utf-8">
<meta name="viewport" content="width=device-width">
<title>{verdict}</title>
<style>{STYLE}</style>
</head>
<body>
<h1 class="{KINDS.get(report.status, 'unshown')}">{verdict}</h1>
<dl>
{shown}</dl>
<h2>The answer</h2>
{pre(NEWLINE.join(report.short.lines()), is_wide=False)}
{run}<h2>All its lines</h2>
{pre(NEWLINE.join(lines), is_wide=False)}
<h2>What it was asked of</h2>
{pre(text_of(report.text))}
<h2>Files</h2>
<ul>
{links}</ul>
</body>
</html>
"""


def write(folder, report, data, program):
    """Writes the report, with these data for scripts."""
    texts_by_name = {report.text.name: text_of(report.text), report.certificate.name: text_of(report.certificate)}
    picture, run = drawn_in(report, program) if report.schedule else (None, "")
    if report.schedule:
        texts_by_name |= {f"{report.text.stem}{SCHEDULE}": report.schedule}
    if report.short.shown:
        texts_by_name |= {f"{report.text.stem}{SHOWN}": report.short.shown.schedule}
    if picture:
        texts_by_name |= {f"{report.text.stem}.svg": picture}
    texts_by_name |= {DATA: queue_data.text(data)}
    put_all(folder, texts_by_name | {PAGE: page_of(report, data["lines"], run, texts_by_name)})


def put_all(folder, texts_by_name):
    """Writes the files: each is made beside the folder first, so that a fault leaves none of them there."""
    folder = Path(folder).resolve()
    made = folder.with_name(f".{folder.name}.{os.getpid()}")
    try:
        for name, text in texts_by_name.items():
            put(made / name, text)
        check_folder(folder)
        folder.mkdir(exist_ok=True)
        for name in texts_by_name:
            (made / name).replace(folder / name)
    except OSError as error:
        raise Refused(f"{folder}: {error.strerror}") from None
    finally:
        shutil.rmtree(made, ignore_errors=True)
