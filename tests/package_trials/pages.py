"""The pages that are installed: each command that they show prints what stands there, with what is installed beside them."""

import re

import tree

from . import call, install, workplace


def part(count, program):
    with workplace(program) as (folder, alone):
        install("--prefix", folder / "prefix", "--program", alone)
        status, said, faults = call(tree.TOP / "scripts/check-pages", "--installed", folder / "prefix")
        count.told("the commands of the pages", status == 0, said + faults)
        share = folder / "prefix" / tree.SHARE
        linked = ((page, name) for page in share.rglob("*.md") for name in re.findall(r"\]\(([^)#:\s]+)(?:#[^)]*)?\)", page.read_text()))
        missing = sorted(f"{page.relative_to(share)}: {name}" for page, name in linked if not (page.parent / name).exists())
        count.same("what a page links and isn't installed", missing, [])
        for name in tree.TOOLS:
            status, said, faults = call(folder / "prefix/bin" / f"ztso-{name}", "--help", folder="/")
            count.told(f"ztso-{name} --help", status == 0 and f"tools/{name}" in said and not faults, said + faults)
