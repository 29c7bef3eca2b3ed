"""What pages say: no sentence stands on two of them, and all together have no more words than a limit."""

import re
from collections import defaultdict

from . import links

WORDS = 60_000  # of all pages, as `wc -w` counts them; lower it when pages get shorter
IN_A_ROW = 10
MAY_SAY_AGAIN = {"CHANGELOG.md", *(f"examples/{folder}/README.md" for folder in ("assembly", "c", "cpp", "rust"))}  # each is read alone
CODE = re.compile(r"^ *```.*?^ *```$|<!-- scripts/[\w-]+:.*?begin -->.*?<!-- scripts/[\w-]+:.*?end -->", re.M | re.S)


def prose(text):
    """The paragraphs and lists of a page, each as one line, without code, generated parts and tables."""
    for line in CODE.sub("", text).split("\n"):
        if not line.lstrip().startswith("|"):
            yield re.sub(r"\[([^\]]*)\]\([^)]*\)", r"\1", line)


def rows(text):
    """Each ten words in a row of one paragraph."""
    for line in prose(text):
        words = re.findall(r"[\w'/.-]*\w", line.lower())
        for at in range(len(words) - IN_A_ROW + 1):
            yield " ".join(words[at:at + IN_A_ROW])


def wrong():
    """A line for each page that says what another one says, and one if the pages have too many words."""
    places, count = defaultdict(dict), 0
    for page in links.pages():
        text, name = page.read_text(), str(page.relative_to(links.ROOT))
        count += len(text.split())
        if name not in MAY_SAY_AGAIN:
            for row in rows(text):
                places[row][name] = True
    told = set()
    for row, names in places.items():
        pair = tuple(names)
        if len(pair) > 1 and pair not in told:
            told.add(pair)
            yield f"{' and '.join(pair)} both say: {row}"
    if count > WORDS:
        yield f"the pages have {count} words, and may have {WORDS}"
