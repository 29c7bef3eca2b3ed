"""Files of several texts, each below a line `== NAME`."""

import re


def sections(text):
    """The names and the texts, in their order. An empty line before the next name belongs to none of them."""
    before, *found = re.split(r"^== (\S+)\n", text, flags=re.MULTILINE)
    if before.strip():
        raise ValueError(f"no line '== NAME' stands above: {before.split()[0]}")
    return [(name, each.rstrip("\n") + "\n") for name, each in zip(found[::2], found[1::2])]
