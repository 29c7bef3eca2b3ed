"""Files that aren't litmus texts of ztso yet, made into tests: C by tools/from-c, texts of herd's by
tools/from-herd."""

import re
import shutil

from bring_parts import Refused, compilers

from page_parts import TOOLS
from page_parts.faults import Fault
from page_parts.questions import COMPILERS


def installed():
    """The compilers that are here, where the binutils are too that from-c needs with them."""
    def is_here(name):
        try:
            return bool(compilers.Compiler(name).version())
        except Refused:
            return False
    binutils = all(shutil.which(compilers.binutil(name)) for name in ("nm", "objdump"))
    return [name for name in COMPILERS if binutils and is_here(name)]


def made(calls, tool, name, text, *options):
    """What a tool makes of a text, and its notes."""
    status, out, err = calls.run([str(TOOLS / tool), *options], {name: text})
    # the tool names the file, which is the page's own
    said = re.sub(r"/\S*/" + re.escape(name), "the file", err).strip()
    notes = [line.removeprefix(f"{tool}: the file: ").removeprefix("rewritten: ") for line in said.splitlines()]
    if status:
        raise Fault("Refused", [f"tools/{tool} refuses it: " + " ".join(notes).removeprefix("refused: ")])
    return {"text": out, "notes": notes}


def of_c(calls, asked):
    """The test that a compiler makes of C."""
    mapping = ["--mapping", asked["mapping"]] if asked["mapping"] else []
    herds = re.match(r"\s*C\s", asked["text"])
    return made(calls, "from-c", "dropped.c.litmus" if herds else "dropped.c", asked["text"],
                "--compiler", asked["compiler"], "--fences", asked["fences"], *mapping)


def of_herd(calls, asked):
    """The test that a text of herd's is, with what was rewritten."""
    return made(calls, "from-herd", "dropped.litmus", asked["text"])
