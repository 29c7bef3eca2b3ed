"""What a mapping of one's own shows that others don't, and the other way round: each outcome with a shortest schedule, its
picture, and all that makes it again, as a text and as one page of HTML."""

import html
import json
import re
import shlex
import tempfile
from dataclasses import dataclass
from pathlib import Path

from bring_parts import Refused, c_lines, compilers, languages, making, mappings, text_of, typed
from bring_parts.making import Way
from bring_parts.mappings import FULL, KEPT, RVWMO, ZTSO

import litmus

# the mappings with which one's own are compared
THEIRS = (RVWMO, ZTSO)
HEADS = ("compiled by", "instructions", "fences", "full", "AMOs", "outcomes", "states", "condition")
STYLE = """body{font:15px/1.5 system-ui,sans-serif;max-width:75em;margin:2em auto;padding:0 1em}
pre{background:#8881;padding:.7em;overflow:auto;font-size:13px}.wide{overflow-x:auto}svg{max-width:100%;min-width:48em;height:auto}
table{border-collapse:collapse}td,th{border:1px solid #8886;padding:.2em .6em;text-align:left}
@media(prefers-color-scheme:dark){body{background:#0d1117;color:#e6edf3}a{color:#79b8ff}}"""


@dataclass(frozen=True)
class Difference:
    """An outcome that some ways show of a C file by one compiler, and others don't: the tokens of a shortest
    schedule by the first of `show`, with how it is compiled and its text."""
    path: Path
    compiler: str
    way: Way
    show: tuple
    lack: tuple
    values: tuple
    tokens: str
    text: str
    # what is said of those that don't show it, and whether one of their searches was cut
    told: str
    is_cut: bool
    is_new: bool

    def head(self):
        cut = ", whose search was cut" * self.is_cut
        return (f"{self.path.name} by {self.compiler}: {mappings.joined(self.values)} is shown by {', '.join(self.show)}, "
                f"and not by {', '.join(self.lack)}{cut}")

    def schedule(self):
        return f"ztso-schedule 1\n{self.tokens}\n"


def of(comparison, own):
    """What is new in a file by one compiler, or lost: by each mapping of one's own beside the others, without the fences
    that aren't full, and by ztso.h in place of rvwmo.h."""
    for name in own:
        yield from between(comparison, name, THEIRS)
    for name, than in ((FULL, KEPT), (ZTSO, RVWMO)):
        yield from (one for one in between(comparison, name, (than,)) if one.is_new)


def between(comparison, name, others):
    """Where a way's outcomes and those of others differ."""
    found = {each: comparison.ways[each].found for each in dict.fromkeys((name, *others)) if each in comparison.ways}
    if name not in found:
        return
    for values in sorted({values for each in found.values() for values in each.schedules}):
        show = [each for each in found if values in found[each].schedules]
        if lack := [each for each in found if each not in show]:
            told = ", ".join(f"by {each} in {found[each].states} states" for each in lack)
            is_cut, first = any(found[each].cut for each in lack), show[0]
            yield Difference(comparison.path, comparison.compiler, comparison.names[first], tuple(show), tuple(lack), values,
                             found[first].schedules[values], comparison.ways[first].text, told, is_cut, name in show)


def pictures(program, difference):
    """The picture as text, and as SVG where the program draws one."""
    with tempfile.TemporaryDirectory() as folder:
        path = Path(folder, "shown.litmus")
        path.write_text(difference.text)
        schedule, test = difference.schedule(), litmus.read(difference.text)
        as_text = c_lines.picture(program, path, test, schedule, 4, ["--memory"])
        try:
            as_svg = c_lines.picture(program, path, test, schedule, 4, ["--memory", "--svg"])
        except Refused:
            as_svg = ""  # tools/reference draws none
    return as_text, as_svg.partition("?>")[2].strip()


def scaling(svg):
    """The picture with a viewBox, so that its whole is seen where it is made smaller."""
    size = re.search(r"<svg\b[^>]*?\bwidth=['\"]([0-9]+)['\"] height=['\"]([0-9]+)['\"]", svg)
    if not size or "viewBox" in size[0]:
        return svg
    return svg.replace("<svg", f"<svg viewBox='0 0 {size[1]} {size[2]}'", 1)


def commands(difference):
    """What makes the text and the picture again, in the folder where this is said."""
    is_c, is_rust = mappings.is_c(difference.path), languages.language_of(difference.path) == languages.RUST
    words = difference.way.words(True, is_compiled=not is_rust)
    yield f"{typed('from-c' if is_c else 'from-object')} {shlex.quote(str(difference.path))} {words} -o shown.litmus"
    yield f"printf 'ztso-schedule 1\\n{difference.tokens}\\n' > shown.schedule"
    yield f"{typed('chart-lines')} shown.litmus shown.schedule --memory"


def as_text(program, difference):
    """A difference as lines."""
    picture, _ = pictures(program, difference)
    lines = [*commands(difference), "", *picture.rstrip("\n").split("\n")]
    return "\n".join([f"### {difference.head()}", "", f"Not shown {difference.told}.", "",
                      *(f"    {line}".rstrip() for line in lines), ""])


def pre(text):
    return f"<pre>{html.escape(text)}</pre>"


def folded(head, text):
    return f"<details><summary>{html.escape(head)}</summary>{pre(text)}</details>"


def table(comparisons):
    """The rows of a file, each with its code folded."""
    heads = "".join(f"<th>{html.escape(head)}" for head in (*HEADS, "code"))
    rows = []
    for each in comparisons:
        for name, cells in zip(each.names, each.rows()):
            code = folded("code", each.ways[name].text) if name in each.ways else ""
            rows.append("<tr>" + "".join(f"<td>{html.escape(str(cell))}" for cell in cells) + f"<td>{code}")
    return f"<div class=wide><table><tr>{heads}{''.join(rows)}</table></div>"


def shown(program, difference):
    """An outcome with its picture."""
    text, svg = pictures(program, difference)
    return [f"<h3>{html.escape(difference.head())}</h3><p>Not shown {html.escape(difference.told)}.</p>",
            f"<div class=wide>{scaling(svg)}</div>", pre(text), pre("\n".join(commands(difference)))]


def page(program, comparisons, found):
    """One page of HTML with a part for each file, and what they come from. It needs nothing else."""
    files = {each.path: [other for other in comparisons if other.path == each.path] for each in comparisons}
    parts = ["<!doctype html><html lang=en><meta charset=utf-8><meta name=viewport content='width=device-width'>",
             f"<title>Mappings compared</title><style>{STYLE}</style><h1>Mappings compared</h1>",
             f"<p>{html.escape(summary(comparisons, found))}</p>",
             "<p>Outcomes come from a search of all states of a machine of FIFO store buffers of 4 stores; one with a + isn't "
             "shown by the compiler's own code. Of an outcome that isn't shown nothing is claimed. Commands are those of the "
             "folder in which this page was made.</p>"]
    for path, of_file in files.items():
        parts += [f"<h2>{html.escape(path.name)}</h2>", folded("source", text_of(path)), table(of_file), "<ul>",
                  *(f"<li>{html.escape(line)}" for each in of_file for line in each.told()), "</ul>",
                  *(part for one in found if one.path == path for part in shown(program, one))]
    mapped = dict.fromkeys(name for each in comparisons for name, way in each.names.items() if way.mapping)
    parts += ["<h2>Mappings</h2>", *(folded(name, text_of(making.mapping_of(name))) for name in mapped), "<h2>Compilers</h2>",
              pre("\n".join(f"{name}: {version_of(name)}" for name in dict.fromkeys(each.compiler for each in comparisons)))]
    return "\n".join(parts) + "\n"


def key_of(one):
    """What makes an outcome the same in another run: the file, the compiler, the way and the values."""
    return [one.path.name, one.compiler, Path(one.show[0]).name, list(one.values)]


def is_failing(one, known=()):
    """Whether an outcome fails the run: it is new and not known, and no search that lacks it was cut."""
    return one.is_new and not one.is_cut and key_of(one) not in known


def as_json(comparisons, found, untried, known, status):
    """All of it, as JSON has it: docs/from-c.md has the keys."""
    def row(each, name):
        if name not in each.ways:
            return {"way": name, "refused": each.refused[name]}
        way = each.ways[name]
        return {"way": name, "instructions": way.instructions, "fences": sum(way.fences.values()), "full": way.full, "amos": way.amos,
                "outcomes": [{"values": list(values), "schedule": tokens} for values, tokens in sorted(way.found.schedules.items())],
                "states": way.found.states, "stopped": way.found.cut, "condition": way.condition()}

    def outcome(one):
        return {"file": one.path.name, "compiler": one.compiler, "way": Path(one.show[0]).name, "values": list(one.values), "shown": list(one.show),
                "lacking": list(one.lack), "schedule": one.tokens, "stopped": one.is_cut, "known": key_of(one) in known}

    files = [{"file": str(each.path), "compiler": each.compiler, "atomics": each.atomics, "mapped": each.atomics - each.left,
              "rows": [row(each, name) for name in each.names]} for each in comparisons]
    made = {"files": files, "new": [outcome(one) for one in found if one.is_new], "lost": [outcome(one) for one in found if not one.is_new],
            "untried": untried, "status": status, "summary": summary(comparisons, found, untried, known)}
    return json.dumps(made, indent=1) + "\n"


def known_in(text, path):
    """The outcomes that a file of `--json` has as new."""
    try:
        return [[one["file"], one["compiler"], one["way"], one["values"]] for one in json.loads(text)["new"]]
    except (ValueError, KeyError, TypeError):
        raise Refused(f"{path}: it isn't what --json prints") from None


def summary(comparisons, found, untried=(), known=()):
    """How many outcomes are new, in how many files; how many atomic operations went through a mapping; and what wasn't tried."""
    by = counted(len({each.compiler for each in comparisons}), "compiler")
    new = {(one.path, one.compiler, one.values) for one in found if one.is_new and key_of(one) not in known}
    files = counted(len({each.path for each in comparisons}), "file")
    line = (f"{counted(len(new), 'new outcome')} in {len({path for path, *_ in new})} of {files} by {by}" if new else
            f"no new outcome in {files} by {by}")
    lost = sum(not one.is_new for one in found)
    line += f"; {counted(lost, 'outcome')} that another mapping shows and yours doesn't" if lost else ""
    old = sum(key_of(one) in known for one in found if one.is_new)
    line += f"; {counted(old, 'outcome')} known" if old else ""
    atomics, left = sum(each.atomics for each in comparisons), sum(each.left for each in comparisons)
    line += f"; {atomics - left} of {counted(atomics, 'atomic operation')} went through a mapping" if any(map(mapped, comparisons)) else ""
    return line + (f"; not tried: {len(untried)}" if untried else "")


def mapped(comparison):
    return mappings.is_mapped(comparison.path) and comparison.ways


def version_of(compiler):
    """What a compiler says of its version."""
    try:
        return compilers.Compiler(compiler).version()
    except Refused as refused:
        return str(refused)


def counted(number, word):
    return f"{number} {word}{'s' * (number != 1)}"
