"""One's own text, which nothing takes away for good; files and keys without effect, whose reason is said; and what looks
like a slip."""

import tempfile
from pathlib import Path

from page_trials import rows, texts
from page_trials.served import SB

OWN = rows.COMPUTES
# P0 stores to an address that is no multiple of 4, so it stops
STOPS = SB.replace("0:x6=x;", "0:x6=3;").replace("RISCV SB", "RISCV stops")
SLIP = SB.replace("1:x8=x;", "1:x8=X;").replace("RISCV SB", "RISCV slip")
UNSET = SB.replace("0(x8) | lw", "0(x9) | lw").replace("RISCV SB", "RISCV unset")
X86 = "X86 SB\n{ x=0; y=0; }\n P0 | P1 ;\n MOV [x],$1 | MOV [y],$1 ;\nexists (0:EAX=0)\n"
TEXT = "document.getElementById('text').value"


def part(count, page):
    page.open()
    kept(count, page)
    linked(count, page)
    with tempfile.TemporaryDirectory(prefix="ztso-page-") as folder:
        files(count, page, Path(folder))
    keys(count, page)
    slips(count, page)
    room(count, page)
    page.choose("sb")


def shows(page):
    return page.run(TEXT), page.strip()


def kept(count, page):
    page.choose("sb")
    page.event("a0", "a1")
    page.over("text", OWN)
    page.run("document.activeElement.blur()")
    said = page.strip(), page.note()
    count.told("another test begins without the schedule", said[0] == "" and "2 events of the other test's" in said[1], said)
    page.event("a0", "a1")
    page.choose("mp")
    count.told("a choice keeps one's own text", page.texts("#kept button")[0] == "computes", page.text("#kept"))
    page.click("#kept button")
    count.told("which a button brings back with its run", shows(page) == (OWN, "a0 a1"), page.strip())
    page.choose("mp")
    page.choose("")
    count.told("and the list", shows(page) == (OWN, "a0 a1"), page.strip())
    page.run(f"document.getElementById('text').focus(), {TEXT}.length")
    page.browser.type("(* typed *)")
    page.choose("mp")
    page.click("#kept button")
    count.told("also what was typed just now", "(* typed *)" in page.run(TEXT))
    page.over("text", STOPS)
    page.choose("mp")
    count.told("a second text is kept beside it", page.texts("#kept button")[0] == "stops", page.text("#kept"))
    page.click("#kept button")
    page.choose("sb")


def linked(count, page):
    """A link that is opened in a tab which has a text."""
    page.browser.send("Browser.grantPermissions", permissions=["clipboardReadWrite", "clipboardSanitizedWrite"], session=None)
    page.event("a0")
    page.click("#saving summary")
    page.click("#link")
    page.browser.until("document.getElementById('note').textContent.startsWith('Copied')")
    link = page.run("navigator.clipboard.readText()")
    page.over("text", OWN)
    page.run(f"location.hash = {link[link.index('#'):]!r}")
    page.browser.until(f"!location.hash && {TEXT}.includes('RISCV SB')")
    page.idle()
    count.told("a link keeps it", page.texts("#kept button")[0] == "computes", page.text("#kept"))
    page.click("#kept button")
    page.open(link[link.index("#"):])
    found = page.strip(), page.texts("#kept button")[0]
    count.told("also where the tab is loaded by it", found == ("a0", "computes"), found)
    page.click("#kept button")


def files(count, page, folder):
    for name, content in (("picture.png", b"\x89PNG\r\n\x1a\n\0\0\0"), ("zeros.litmus", b"RISCV \0"), ("SB.litmus", X86.encode()),
                          ("large.litmus", b" " * (1 << 20) + b" "), ("wrong.schedule", b"ztso-schedule 1\nb0")):
        path = folder / name
        path.write_bytes(content)
        texts.drop(page, path)
        said = page.text("#refused")
        count.told(f"{name} isn't taken, and the reason stands beside the text", page.run(TEXT) == OWN and name in said, said)
    path = folder / "broken.litmus"
    path.write_text(texts.FAULTY)
    texts.drop(page, path)
    said = page.text("#refused"), page.text("#fault"), page.texts("#kept button")[0]
    count.told("a text with a fault is", page.run(TEXT) == texts.FAULTY and "broken.litmus" in said[0]
               and "Line 9" in said[1] and said[2] == "computes", said)
    page.click("#kept button")
    count.told("and leads back", page.run(TEXT) == OWN and not page.text("#fault") + page.text("#refused"), page.text("#fault"))


def why(page):
    return page.run("document.getElementById('why').hidden ? '' : document.getElementById('why').textContent")


def keys(count, page):
    """A key without effect says why."""
    page.choose("sb+fence.rw.rws")
    page.run("document.activeElement.blur()")
    for key, shift, said in (("7", False, "This test has no P7."), ("0", True, "P0 has no store to land."),
                             ("ArrowLeft", False, "at its start"), ("ArrowRight", False, "no event yet"),
                             ("s", False, "no event yet"), ("c", False, "no event yet"), ("b", False, "no breakpoint")):
        page.keys(key, shift=shift)
        count.told(f"why {'Shift ' * shift}{key} does nothing", said in why(page), why(page))
    page.keys("0", "0")
    count.told("why a hart waits", why(page) == "P0 waits: P0's store buffer must be empty first.", why(page))
    page.keys("s")
    count.told("why a run isn't shrunk", "a finished run" in why(page), why(page))
    page.keys("0", shift=True)
    page.keys("0", "0", "0")
    count.told("why an ended hart does nothing", why(page) == "P0 has ended and does nothing more.", why(page))
    page.click("#forward")
    count.told("a button says it too", "at the schedule's end" in why(page), why(page))
    page.over("text", texts.FAULTY)
    page.run("document.activeElement.blur()")
    page.press("0")
    count.told("why a text with a fault has no machine", "text has a fault" in why(page), why(page))


def slips(count, page):
    page.over("text", STOPS)
    page.draw()
    said = page.texts("#drawn p")[-1]
    count.told("which hart stops, and by which number",
               said == "Most runs didn't finish: P0 stops by 9 Misaligned. A hart that stopped doesn't end.", said)
    if page.run("!document.getElementById('find').hidden"):
        page.click("#find")
        said = page.note()
        count.told("also where a search finds nothing", "Not found in" in said and "P0 stops by 9 Misaligned." in said, said)
    page.over("text", SLIP)
    said = page.text("#slips")
    count.told("locations that one hart names", said.startswith("Only one hart names x (P0) and X (P1)."), said)
    page.over("text", UNSET)
    said = page.text("#slips")
    count.told("a base that nothing sets", said == "Nothing sets P0's x9: it is 0, and lw x7,0(x9) (line 9) touches x.", said)
    page.choose("rsw")
    count.told("the shelf's are meant", page.text("#slips") == "", page.text("#slips"))


def room(count, page):
    """What a wide window shows, and the editor as it is dragged."""
    page.browser.size(1920, 1080)
    page.choose("iriw")
    # the comment stands above the editor too
    code = max(len(line) for line in page.run(TEXT).split("\n") if "(*" not in line)
    found = page.run("""(() => { const text = document.getElementById("text"), style = getComputedStyle(text);
        const letter = Object.assign(document.createElement("canvas").getContext("2d"), { font: style.font }).measureText("0").width;
        return [(text.clientWidth - 12) / letter, text.clientHeight >= text.scrollHeight]; })()""")
    count.told("a wide window shows the whole of IRIW", found[0] >= code and found[1] and not page.wide(), found)
    page.run("Object.assign(document.getElementById('editor').style, { width: '900px', height: '500px' })")
    found = page.run("""["editor", "machine"].map(id => document.getElementById(id).getBoundingClientRect()).map(
        ({ left, right, height }) => [left, right, height])""")
    count.told("the editor is dragged both ways, and the machine makes room", found[0][2] == 500 and found[0][1] < found[1][0]
               and page.run("getComputedStyle(document.getElementById('editor')).resize") == "both" and not page.wide(), found)
    page.run("document.getElementById('editor').removeAttribute('style')")
    page.browser.size(1280, 800)
