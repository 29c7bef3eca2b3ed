"""Refusals of the program, in the words of docs/errors.md and errors-of-queues.md."""

import re

from page_parts import ROOT


def sections_of(page):
    """The sections of a page of errors: by number or heading the name, and the paragraphs without examples."""
    sections = {}
    for heading, body in re.findall(r"^### (.*)\n((?:(?!##).*\n)*)", page, re.MULTILINE):
        prose = re.sub(r"```.*?```", "", body, flags=re.DOTALL)
        paragraphs = [" ".join(part.split()) for part in prose.split("\n\n")]
        number, _, name = heading.partition(" ")
        sections[number if number.isdigit() else heading] = name, [part for part in paragraphs if part]
    return sections


SECTIONS = {key: section for name in ("errors", "errors-of-queues") for key, section in sections_of((ROOT / f"docs/{name}.md").read_text()).items()}


class Fault(Exception):
    """An input that is refused: `said` is what the page shows of it."""

    def __init__(self, name, words, line="", number=None, place=None):
        super().__init__(name)
        self.said = {"name": name, "words": words, "line": line, "number": number, "place": place or {}}


def of_line(line):
    """The refusal that the program's line on standard error names."""
    line = line.strip()
    shape = re.fullmatch(r"ztso: (?:refused (\d+)|(.*?))(?: at (line|byte|event) (\d+))?", line)
    number, other, kind, place = shape.groups() if shape else (None, None, None, None)
    name, words = SECTIONS.get(number or other, (other or line, []))
    return Fault(name, words, line, number and int(number), {kind: int(place)} if kind else {})


def of_stop(number):
    """Why a hart stopped."""
    name, words = SECTIONS.get(str(number), ("", [""]))
    return {"name": name, "words": words}
