"""Texts that are typed, pasted, dropped or linked: faults, hostile names, many harts, files, links."""

import base64
import json
import tempfile
import time
import zlib
from pathlib import Path

from page_parts import ROOT
from page_trials.served import SB

FAULTY = SB.replace("lw x7,0(x8) ;", "lq x7,0(x8) ;")
EVIL = SB.replace("RISCV SB", "RISCV <script>document.title='broken'</script><img/src=x/onerror=alert(1)>") \
    .replace("may both", "<b onclick=x>may</b> both")
LONG = SB.replace("RISCV SB", f"RISCV {'n' * 3000}").replace("=x;", f"={'n' * 3000};")
MANY = (f"RISCV many\n{{ }}\n {' | '.join(f'P{hart}' for hart in range(64))} ;\n"
        f" {' | '.join(['sw x5,0(x6)'] * 64)} ;\nexists (0:x5=1)\n")


def part(count, page):
    page.open()
    typed(count, page)
    sizes(count, page)
    pasted(count, page)
    links(count, page)
    hostile_links(count, page)
    with tempfile.TemporaryDirectory(prefix="ztso-page-") as folder:
        saved(count, page, Path(folder))
        dropped(count, page, Path(folder))
        of_others(count, page, Path(folder))


def typed(count, page):
    page.choose("sb")
    page.event("a0", "a1")
    page.over("text", FAULTY)
    said = page.text("#fault")
    count.told("a fault at its line, in words", page.text("#numbers b") == "9" and "The mnemonic isn't known" in said, said)
    stale = page.text("#question") + page.text("#witnesses") + page.run("document.getElementById('shelf').value")
    count.told("nothing is left of the test before", page.run("document.getElementById('machine').inert") and not stale, stale)
    page.run("document.activeElement.blur()")
    for key in ("0", "ArrowLeft", "d"):
        page.press(key)
    count.told("by keys neither", page.strip() == "a0 a1" and not page.text("#drawn"), page.strip())
    fenced = SB.replace(" lw x7,0(x8) | lw x7,0(x8) ;", " fence rw,rw | fence rw,rw ;\n lw x7,0(x8) | lw x7,0(x8) ;")
    page.over("text", fenced)
    count.told("the schedule stays while the text changes", page.strip() == "a0 a1" and not page.text("#fault"), page.strip())
    page.over("text", EVIL)
    page.run("document.activeElement.blur()")
    page.click("#harts .event:not([aria-disabled=true])")
    broken = page.run("document.querySelectorAll('main [onclick], main script').length + (document.title === 'broken')")
    count.told("tags in a name stay text", broken == 0 and "<b onclick=x>" in page.text("#question"), broken)


def of_others(count, page, folder):
    """A text of several faults: the assembler's comes first, with what the mnemonic is of, and from-herd's after it."""
    page.over("text", "RISCV T\n{ 0:x6=x; }\n P0 ;\n sd x5,0(x6) ;\nexists (x=0)\n")
    said = page.texts("#fault p")
    count.told("what a mnemonic of RV64 is of", said[0].startswith("Line 4, P0:") and said[1] == "sd is RV64: this machine has RV32I.", said)
    path = folder / "both.litmus"
    path.write_text("RISCV T\n{ 0:x6=x; }\n P0 ;\n sd x5,0(x6) ;\n lw.aq x5,0(x6) ;\nexists (x=0)\n")
    drop(page, path)
    said = page.texts("#fault p, #refused p")
    count.told("the assembler's fault is before from-herd's", said[1] == "sd is RV64: this machine has RV32I."
               and said[-1].startswith("both.litmus: "), said)
    page.choose("sb")


def sizes(count, page):
    page.over("text", LONG)
    page.click("#to-start")
    page.event("a0")
    page.draw()
    count.told("long names widen nothing", not page.wide())
    page.over("text", MANY)
    page.event("a63")
    count.told("64 harts", page.run("document.querySelectorAll('.hart').length") == 64 and not page.wide())


def pasted(count, page):
    page.choose("sb")
    page.paste("ztso-schedule 2\na0*1 store 0 0 1\na1 store 1 4 1\nl0 land 0\n")
    count.told("a pasted record", page.strip() == "a0 a1 l0", page.strip() + page.note())
    page.browser.send("Browser.grantPermissions", permissions=["clipboardReadWrite", "clipboardSanitizedWrite"], session=None)
    page.click("#copy")
    time.sleep(0.2)
    said = page.run("navigator.clipboard.readText()")
    count.told("copied, with the head line", said == "ztso-schedule 1\na0 a1 l0\n", said)
    page.paste("a0 b1")
    count.told("a pasted fault", "28 at byte 19" in page.note(), page.note())
    page.paste("#run=abc")
    count.told("a link that isn't whole", "isn't a whole link" in page.text("#damaged") and page.run(
        "document.getElementById('damaged').getBoundingClientRect().bottom < 120"), page.text("#damaged"))
    page.paste("a0 a1 l0")
    count.told("is forgotten after another one", not page.text("#damaged"), page.text("#damaged"))
    page.run("location.reload()")
    page.browser.until("document.readyState === 'complete'")
    page.idle()
    count.told("loaded again, the tab keeps its run", page.strip() == "a0 a1 l0", page.strip())


def links(count, page):
    page.keys("ArrowLeft")
    page.click("#link")
    page.browser.until("document.getElementById('note').textContent.startsWith('Copied')")
    link = page.run("navigator.clipboard.readText()")
    count.told("a link has no secret, and an address where there is none",
               link.startswith(page.served.link) and page.served.secret not in link, link)
    page.choose("mp")
    page.paste(link)
    count.told("a pasted link", page.place() == "2 of 3 events" and page.strip() == "a0 a1 l0", page.place())
    page.choose("mp")
    page.open(link[link.index("#"):])
    count.told("an address with a link", page.place() == "2 of 3 events" and page.run("location.hash") == "", page.place())
    page.paste(link_of({"text": SB, "buffer": 2, "draw": "bursts", "tokens": "a0"}))
    chosen = page.run("[document.getElementById('buffer').value, document.getElementById('how').value]")
    count.told("a link with its buffer and its draw", chosen == ["2", "bursts"], chosen)
    page.paste(link_of({"text": SB, "buffer": 4, "tokens": "a0 a1 l0"}))
    chosen = page.run("document.getElementById('how').value")
    count.told("a link without a draw is uniform", chosen == "uniform", chosen)


def link_of(content):
    """A link that holds this."""
    squeezed = zlib.compressobj(wbits=-15)
    packed = squeezed.compress(content if isinstance(content, bytes) else json.dumps(content).encode()) + squeezed.flush()
    return "#run=" + base64.urlsafe_b64encode(packed).decode().rstrip("=")


def hostile_links(count, page):
    """Links that nobody copied from the page: each is refused as a whole, before a count in it is unfolded."""
    run = {"text": SB, "buffer": 4, "tokens": "a0 a1", "place": 1}
    page.choose("sb")
    page.paste("a0 a1 l0")
    begun = time.monotonic()
    for name, content in (
            ("an event 4,294,967,295 times", run | {"tokens": "a0*4294967295"}), ("2,001 events", run | {"tokens": "a0*2000 a1"}),
            ("many large counts", run | {"tokens": "a0*9999 " * 200}), ("an option as tokens", run | {"tokens": "--svg"}),
            ("lines as tokens", run | {"tokens": "a0\nl0"}), ("another buffer", run | {"buffer": 3}), ("another draw", run | {"draw": "burst"}),
            ("a text that is none", run | {"text": {"length": 1}}), ("no run", []), ("nothing", None), ("no JSON", b"RISCV"),
            ("40 MB of one letter", json.dumps(run | {"text": "x" * 40_000_000}).encode())):
        page.paste(link_of(content))
        count.told(f"a link with {name}", "isn't a whole link" in page.text("#damaged") and page.strip() == "a0 a1 l0",
                   page.text("#damaged") + page.strip())
    count.told("which takes no time", time.monotonic() - begun < 20, time.monotonic() - begun)
    for place in (-1, 3, 1e99, "1", None):
        page.paste(link_of(run | {"place": place}))
        count.told(f"a link with the place {place} shows the end", page.place() == "2 of 2 events", page.place())
    page.paste(link_of(run))
    count.told("one with a place shows it", page.place() == "1 of 2 events", page.place())
    evil = link_of(run | {"text": EVIL})
    page.open(evil)
    broken = page.run("document.querySelectorAll('main [onclick], main script').length + (document.title === 'broken')")
    count.told("tags in a link stay text", broken == 0 and page.place() == "1 of 2 events", broken)
    page.choose("sb")
    page.paste("a0 a1 l0")


def saved(count, page, folder):
    page.browser.send("Browser.setDownloadBehavior", behavior="allow", downloadPath=str(folder), session=None)
    for button, name, begins in (("save-schedule", "SB.schedule", b"ztso-schedule 1\na0 a1 l0"),
                                 ("save-test", "SB.litmus", b"RISCV SB")):
        page.click("#saving summary")
        page.click(f"#{button}")
        count.told("a choice closes the menu", not page.run("document.getElementById('saving').open"))
        count.told(f"saved: {name}", content(folder / name).startswith(begins))
    if page.run("!!document.querySelector('#chart img')"):
        page.click("#save-picture")
        picture = content(folder / "SB.svg")
        count.told("saved: SB.svg, on white wherever it is shown", picture.startswith(b"<?xml") and b"<rect class='back' fill='#ffffff'" in picture
                   and b"prefers-color-scheme" not in picture and picture.count(b"<style") == 1 == picture.count(b"</style>"), picture[:1500])
        page.click("#save-image")
        size = page.run("(({naturalWidth, naturalHeight}) => [naturalWidth, naturalHeight])(document.querySelector('#chart img'))")
        # a PNG's first part has its width and height
        found = content(folder / "SB.png")
        wide, high = (int.from_bytes(found[at:at + 4], "big") for at in (16, 20))
        count.told("saved: SB.png, twice as fine", found.startswith(b"\x89PNG") and [wide, high] == [2 * one for one in size],
                   [wide, high, size])


def content(path):
    """What is saved in a file, once it is there."""
    until = time.monotonic() + 20
    while not (path.exists() and path.stat().st_size) and time.monotonic() < until:
        time.sleep(0.05)
    return path.read_bytes() if path.exists() else b""


def dropped(count, page, folder):
    drop(page, ROOT / "litmus/two-harts/lb.litmus")
    text = page.run("document.getElementById('text').value")
    count.told("dropped: a test", text.startswith("RISCV LB\n") and not page.text("#fault"), page.note())
    drop(page, ROOT / "examples/herd/LB+typed.litmus")
    text = page.run("document.getElementById('text').value")
    if page.served.shelf()["can"]["herd"]:
        count.told("dropped: a text of herd's", text.startswith("RISCV LB+typed") and not page.text("#fault"), page.note())
        count.told("what was rewritten is said", page.note().startswith("Rewritten: "), page.note())
    else:
        said = page.text("#refused")
        count.told("a text of herd's is refused, with the name of what takes it", "tools/from-herd" in said, said)
    page.choose("lb")
    schedule = folder / "some.schedule"
    schedule.write_text("ztso-schedule 1\na0 a1\n")
    drop(page, schedule)
    count.told("dropped: a schedule", page.strip() == "a0 a1", page.strip())
    drop(page, schedule, ROOT / "litmus/message-passing/mp.litmus")
    count.told("dropped: a test with its schedule", page.strip() == "a0 a1" and page.text("#question").startswith("One hart"),
               page.strip())
    drop(page, ROOT / "examples/c/dekker.c")
    compilers = page.served.shelf()["can"]["c"]
    if not compilers:
        said = page.text("#refused")
        count.told("C without a compiler", "C " in said and "compiled" in said, said)
        return
    count.told("dropped: C", page.note().startswith("Made by tools/from-c") and "exists" in page.text("#verdict code")
               and page.text("#question") == f"tools/from-c dropped.c --compiler {compilers[0]}", page.note())
    page.run("document.getElementById('fences').value = 'none', document.getElementById('fences').dispatchEvent(new Event('change'))")
    page.browser.until("document.getElementById('note').textContent.includes('fences none')")
    page.idle()
    text = page.run("document.getElementById('text').value")
    count.told("and made anew without fences", "fence" not in text.partition("*)")[2], text)
    page.choose("sb")
    count.told("another test is of no C", page.run("document.getElementById('compiling').hidden"))


def drop(page, *paths):
    page.browser.drop(*paths)
    page.idle()
    time.sleep(0.3)
    page.idle()
