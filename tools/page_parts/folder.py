"""The page as a folder of files that any web host serves: the scripts of site/, those of static/ in place of the
server, the program as WebAssembly, and known.json, which has what the server would say of tests and refusals."""

import json
import re
import shutil

from page_parts import ROOT, faults, guide, questions, shelf
from page_parts.server import SITE

STATIC = SITE.parent / "static"
# the server's policy, as far as a page can set it for itself: frames it can't forbid
POLICY = ("default-src 'none'; script-src 'self' blob: 'wasm-unsafe-eval'; style-src 'self'; img-src 'self' blob:; "
          "connect-src 'self'; worker-src blob:; base-uri 'none'; form-action 'none'; "
          "require-trusted-types-for 'script'; trusted-types ztso")
UNPROVED = ('Runs in your browser. The proofs are of the sources: <a href="guide.html#the-page-by-a-link">what is this?</a>')
SLOW = ("The page hasn't begun. It needs scripts and a web host: in its folder, "
        "<code>python3 -m http.server --bind 127.0.0.1</code> is one.")
# what stands in page.html, and what stands in its place
PAGE = {'<meta charset="utf-8">': f'<meta charset="utf-8">\n<meta http-equiv="Content-Security-Policy" content="{POLICY}">',
        '<link rel="stylesheet" href="machine.css">':
            '<link rel="stylesheet" href="machine.css">\n<link rel="stylesheet" href="static.css">',
        "</header>": f'</header>\n<p id="unproved">{UNPROVED}</p>\n<p id="slow">{SLOW}</p>'}


def write(out, wasm):
    """Writes the folder, which isn't there yet, with this program."""
    shutil.copytree(SITE, out)
    shutil.copytree(STATIC, out, dirs_exist_ok=True)
    (out / "page.html").rename(out / "index.html")
    replace(out / "index.html", PAGE)
    shutil.copyfile(wasm, out / "ztso.wasm")
    for name in guide.PAGES:
        (out / name).write_bytes(guide.page(name))
    (out / "known.json").write_text(json.dumps(known(), ensure_ascii=False))
    for path in out.iterdir():
        path.chmod(0o644)


def known():
    version = (ROOT / "VERSION").read_text().strip()
    return shelf.shelf() | {
        "limits": questions.LIMITS, "program": f"ztso {version} in WebAssembly", "unproved": "",
        "can": {"threads": False, "find": True, "memory": True, "herd": False, "c": []}, "sections": faults.SECTIONS}


def replace(path, parts):
    text = path.read_text()
    for old, new in parts.items():
        if len(re.findall(re.escape(old), text)) != 1:
            raise ValueError(f"{path.name} has {old!r} not once")
        text = text.replace(old, new)
    path.write_text(text)
