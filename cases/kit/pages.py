"""Pages whose examples are cases: each code block that begins with `$ ` is a session in a shell.

`$ cat NAME` shows a file, which lies where the block's later commands run. Any other command line runs the program
as `./ztso`, and the lines below it are what must come back: those that begin with `ztso: ` on standard error, the
others on standard output. The status is the one that docs/formats.md gives for such a line, and else 0. A case is
named after the first word of the heading above it, and numbered from the second one on.
"""

import re

from . import form

PAGES = [form.ROOT / "docs/errors.md", form.ROOT / "docs/errors-of-queues.md"]
STATUS = {"all": 1, "cut": 5, "refused": 2, "bad": 2, "read": 3, "write": 3, "no memory": 4, "no record": 1}


def blocks(text):
    """The code blocks: the name from the heading above, the number of the first line, and the lines."""
    name, block = "", None
    for number, line in enumerate(text.split("\n"), 1):
        if line.startswith("```"):
            if block:
                yield (name, *block)
            block = None if block else (number + 1, [])
        elif block:
            block[1].append(line)
        elif line.startswith("#"):
            name = line.strip("# ").split(" ")[0].lower()


def commands(number, lines):
    """The commands of a block, each with the number of its line and the lines below it."""
    found = []
    for at, line in enumerate(lines, number):
        if line.startswith("$ "):
            found.append((line[2:], at, []))
        elif found:
            found[-1][2].append(line)
    return found


def read(path):
    """The cases of a page."""
    cases, count = [], {}
    for name, number, lines in blocks(path.read_text()):
        files = {}
        for command, at, answer in commands(number, lines):
            if shown := re.fullmatch(r"cat (\S+)", command):
                files[shown[1]] = text_of(answer)
                continue
            count[name] = count.get(name, 0) + 1
            case = form.Case(f"{name}-{count[name]}" if count[name] > 1 else name, [], path=path, line=at)
            faults = [line for line in answer if line.startswith("ztso: ")]
            case.shell, case.files = command, dict(files)
            case.stdout.text = text_of(line for line in answer if line not in faults)
            case.stderr = b"".join(content for _, content in text_of(faults))
            case.status = next(status for line, status in STATUS.items() if faults[-1].startswith(f"ztso: {line}")) if faults else 0
            cases.append(case)
    return cases


def numbers(source):
    """The names and numbers of a source: those that its functions `number` return, and its constants."""
    for body in re.findall(r"fn number\(.*?\n    \}\n", source, re.DOTALL):
        yield from re.findall(r"^ +\w+::(\w+)(?: \{ \.\. \})? => (\d+),$", body, re.MULTILINE)
    for name, number in re.findall(r"^pub const (\w+): u8 = (\d+);$", source, re.MULTILINE):
        yield name.title().replace("_", ""), number


def missing():
    """A line for each number of the crates' faults and stops that has no section in docs/errors.md or errors-of-queues.md."""
    text = "".join(page.read_text() for page in PAGES)
    for path in sorted(form.ROOT.glob("crates/*/src/*.rt")):
        if path.stem in ("fault", "faults", "status"):
            for name, number in numbers(path.read_text()):
                if f"\n### {number} {name}\n" not in text:
                    yield f"docs/errors.md: no section `{number} {name}` ({path.relative_to(form.ROOT)})"


def text_of(lines):
    return [(1, f"{line}\n".encode()) for line in lines]
