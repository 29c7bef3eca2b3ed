"""docs/page.md and README.md as pages of the site: what the page's links to its help and to the project open."""

import html
import re

from page_parts import ROOT

# each page's name on the site, with its file in the repository
PAGES = {"guide.html": "docs/page.md", "project.html": "README.md"}
FRONT = """<!doctype html>
<html lang="en">
<head>
<meta charset="utf-8">
<meta name="viewport" content="width=device-width, initial-scale=1">
<meta name="color-scheme" content="light dark">
<title>{title}</title>
<link rel="icon" href="icon.svg">
<link rel="stylesheet" href="page.css">
</head>
<body class="prose">
<p><a href="./">To the page</a> · {other}</p>
"""
OTHER = {"guide.html": '<a href="project.html">The project</a>', "project.html": '<a href="guide.html">The page\'s help</a>'}
LINK = re.compile(r"(!?)\[((?:[^\[\]]|\[[^\]]*\])*)\]\(([^)\s]*)\)")
PICTURE = re.compile(r"!\[([^\]]*)\]\([^)]*\)")
# the command that opens a run, which the site has a link for
OPENS = re.compile(r"page --open '(#run=[\w-]+)'")
ITEM = re.compile(r"(?:- |[0-9]+\. )")


def slug(heading):
    """A heading's name in links, as a host of repositories makes it."""
    return re.sub(r"[^\w\- ]", "", re.sub(r"[`*]", "", heading).lower()).replace(" ", "-")


def place_of(target):
    """Where a link leads on the site, or None where what it names isn't there."""
    path, _, part = target.partition("#")
    if target.startswith("https://"):
        return target
    name = next((name for name, file in PAGES.items() if path and file.endswith(path.removeprefix("../"))), "")
    return f"{name}{f'#{part}' if part else ''}" if name or not path and part else None


def linked(found):
    if found[1]:
        return ""  # a picture
    # the site has no pictures: one that is a link is its description
    place, words = place_of(html.unescape(found[3])), PICTURE.sub(r"\1", found[2])
    return f'<a href="{html.escape(place)}">{words}</a>' if place else words


def inline(text):
    """A line's links, code and words in bold or slanted type."""
    codes = []

    def code(found):
        codes.append(f"<code>{found[1]}</code>")
        return f"\x00{len(codes) - 1}\x00"

    text = re.sub(r"`([^`]+)`", code, html.escape(text, quote=False))
    text = LINK.sub(linked, text)
    text = re.sub(r"\*\*(.+?)\*\*", r"<strong>\1</strong>", text)
    text = re.sub(r"(?<!\w)\*(.+?)\*(?!\w)", r"<em>\1</em>", text)
    return re.sub(r"\x00([0-9]+)\x00", lambda found: codes[int(found[1])], text)


def table(lines):
    rows = [[cell.strip() for cell in re.split(r"(?<!\\)\|", line.strip().strip("|"))] for line in lines]
    heads = "".join(f"<th>{inline(cell)}</th>" for cell in rows[0])
    body = "".join("<tr>" + "".join(f"<td>{inline(cell)}</td>" for cell in row) + "</tr>" for row in rows[2:])
    return f"<div class=\"wide\"><table><tr>{heads}</tr>{body}</table></div>"


def block(lines):
    """A block of lines that no empty line parts."""
    heading = re.fullmatch(r"(#+) (.*)", lines[0])
    if heading:
        level = len(heading[1])
        return f'<h{level} id="{slug(heading[2])}">{inline(heading[2])}</h{level}>' + (block(lines[1:]) if lines[1:] else "")
    if lines[0].startswith("|"):
        return table(lines)
    if ITEM.match(lines[0]):
        kind = "ul" if lines[0].startswith("-") else "ol"
        return f"<{kind}>" + "".join(f"<li>{inline(ITEM.sub('', line, 1))}</li>" for line in lines) + f"</{kind}>"
    return f"<p>{inline(' '.join(lines))}</p>"


def body(markdown):
    """The page's HTML. Code stands between lines of three backquotes."""
    made, lines = [], []

    def end():
        if lines:
            made.append(block(lines))
            lines.clear()

    parts = re.split(r"^```.*\n", re.sub(r"<!--.*?-->\n?", "", markdown), flags=re.MULTILINE)
    for number, part in enumerate(parts):
        if number % 2:
            made.append(f"<pre>{html.escape(part, quote=False)}</pre>")
            made += [f'<p><a href="./{run}">Open this run here</a></p>' for run in OPENS.findall(part)]
            continue
        for line in part.split("\n"):
            if line.strip():
                lines.append(line)
            else:
                end()
        end()
    return "\n".join(each for each in made if each != "<p></p>")


def page(name):
    """The bytes of one of the pages."""
    markdown = (ROOT / PAGES[name]).read_text()
    title = re.match(r"# (.*)", markdown)[1]
    return (FRONT.format(title=html.escape(title), other=OTHER[name]) + body(markdown) + "\n</body>\n</html>\n").encode()
