"""Tests stepped through by clicks and keys."""

import re

from page_parts import ROOT

DEKKER = (ROOT / "examples/c/dekker.gcc.litmus").read_text()
NOT_SHOWN = "That doesn't say that it can't happen."


def part(count, page):
    page.open()
    store_buffering(count, page)
    message_passing(count, page)
    back(count, page)
    keys(count, page)
    onward(count, page)
    drawn(count, page)
    long_runs(count, page)


def store_buffering(count, page):
    count.told("the page begins with store buffering", page.run("document.getElementById('shelf').value") == "sb")
    page.event("a0", "a0", "a1", "a1", "l0", "l1")
    entries = page.texts("#entries li")
    count.told("a list has what each event did, with the store that lands", entries == [
        "P0 stores x := 1", "P0 loads y = 0", "P1 stores y := 1", "P1 loads x = 0", "P0 lands x := 1", "P1 lands y := 1"], entries)
    count.told("store buffering by clicks", (page.strip(), page.word()) == ("a0*2 a1*2 l0 l1", "Holds"), page.strip())
    said = page.text("#said")
    count.told("what an event did is said", said == "P1 lands y := 1. The run is finished: "
               "0:x7 = 0, 1:x7 = 0. Holds", said)
    page.keys("ArrowLeft")
    said = page.text("#said"), page.texts("#entries li")[-1]
    count.told("going back is said, and what is to come", said == ("Back to event 5: P0 lands x := 1", "to come: P1 lands y := 1"), said)
    page.keys("ArrowRight")
    labels = page.run("[...document.querySelectorAll('#strip button')].map(one => one.getAttribute('aria-label'))")
    count.told("equal events are said one by one", labels[0] == "a0*2, 1 to 2: P0 stores x := 1; P0 loads y = 0", labels)
    twice(count, page)
    if page.run("!!document.querySelector('#threads:not([hidden])')"):
        page.click("#threads")
        count.told("a run on threads", page.word() in ("Holds", "Fails") and "threads" in page.note(), page.note())
    said = page.text("#witnesses span"), page.run("document.querySelector('#witnesses button').title")
    count.told("witnesses say of what", said[0] == "witnesses of 0:x7-1:x7" and "ends with 0:x7 = 0, 1:x7 = 0" in said[1], said)
    page.click("#witnesses button")
    count.told("a witness of the shelf", page.strip() == "a0*2 a1*2 l0 l1" and page.word() == "Holds", page.strip())


def twice(count, page):
    """An event that does the same once more changes what a screen reader is told."""
    page.over("text", "RISCV twice\n{ }\n P0 ;\n nop ;\n nop ;\nexists (x=0)\n")
    page.run("document.activeElement.blur()")
    page.keys("0")
    once = page.text("#said")
    page.keys("0")
    again = page.text("#said")
    count.told("the same event again is said again", once.strip() == "P0 computes" and again.startswith("P0 computes") and again != once,
               [once, again])
    page.choose("sb")
    page.event("a0", "a0", "a1", "a1", "l0", "l1")


def message_passing(count, page):
    page.press("t")
    for key in "MP":
        page.press(key)
    page.idle()
    page.press("Escape")
    count.told("a test is chosen by keys", page.run("document.getElementById('shelf').value") == "mp")
    page.event("a0", "a0")
    buttons = page.run("document.querySelectorAll('.hart')[0].querySelectorAll('.queue .event').length")
    count.told("the newer store can't land first", buttons == 1 and "only the oldest can land" in page.text(".buffer"))
    page.event("l0", "l0", "a1", "a1")
    values = page.texts("#verdict .mono")
    count.told("message passing by clicks", page.word() == "Fails" and values == ["1:x5 = 1", "1:x7 = 1"], values)
    page.draw()
    count.told("drawn runs don't show it", NOT_SHOWN in page.text("#drawn") and not page.texts("#drawn .wanted"),
               page.text("#drawn"))
    said = page.text("#excluded")
    count.told("a source excludes it, and is named", "1-0: [Ztso]" in said and "RISC-V Instruction Set Manual" in said, said)
    page.click("#drawn .source")
    opened = page.run("[document.getElementById('excluded').open, document.activeElement.parentElement.id]")
    count.told("the answer leads to the source", opened == [True, "excluded"], opened)


def back(count, page):
    page.keys(*["ArrowLeft"] * 4)
    page.event("a1")
    count.told("another way from the middle", page.strip() == "a0*2 a1" and "left out" in page.note(), page.note())
    if page.run("!!document.querySelector('#chart img')"):
        where = page.run("""(() => { const box = document.querySelector('.rows').getBoundingClientRect();
            return [box.x + 100, box.y + 11]; })()""")
        page.browser.click_at(*where)
        page.idle()
        count.told("a click on the picture's first row", page.place() == "1 of 3 events", page.place())
        page.keys("End")
    page.click("#note button")
    count.told("and back to the first one", page.strip() == "a0*2 l0*2 a1*2", page.strip())
    page.keys("Home", "ArrowRight")
    count.told("Home and Right", page.place() == "1 of 6 events" and page.strip() == "a0 a0 l0*2 a1*2", page.strip())
    page.click('[data-key="to 4"]')
    count.told("a click on an event", page.place() == "4 of 6 events", page.place())
    page.click('[data-key="break 1 4"]')
    page.keys("b")
    count.told("to a breakpoint", page.place() == "5 of 6 events", page.place())


def keys(count, page):
    page.choose("sb+fence.rw.rws")
    page.keys("0")
    count.told("a full fence waits, with the reason", page.text(".why") == "Waits: P0's store buffer must be empty first."
               and page.run("document.querySelector('[data-key=a0]').getAttribute('aria-disabled')") == "true")
    page.keys("0")
    page.keys("0", shift=True)
    page.keys("0", "0")
    count.told("by keys alone", page.strip() == "a0 l0 a0*2", page.strip())
    page.run("document.querySelector('[data-key=a1]').focus()")
    page.keys("Enter")
    key = page.run("document.activeElement.dataset.key")
    count.told("the focus goes on", key == "l1", key)
    page.choose("sb")
    for key in "0011":
        page.press(key)
    page.idle()
    page.browser.until("document.getElementById('place').textContent === '4 of 4 events'")
    count.told("quick keys are all done", page.strip() == "a0*2 a1*2", page.strip())
    page.keys("?")
    count.told("the keys are listed", page.run("document.getElementById('help').open"))
    page.keys("Escape")
    page.run("document.querySelector('#saving summary').focus()")
    page.keys("Enter", "Tab", "Escape")
    closed = page.run("[document.getElementById('saving').open, document.activeElement.tagName]")
    count.told("Esc closes a menu, and the focus stays", closed == [False, "SUMMARY"], closed)


def onward(count, page):
    """Compiled code: most instructions touch no memory."""
    page.over("text", DEKKER)
    page.run("document.activeElement.blur()")
    page.click("#to-start")
    page.click('[data-key="a0"]', shift=True)
    first, ahead = page.strip(), page.text('[data-key="a0"] .does')
    count.told("an act goes on to the next memory access", first == "a0*3" and ahead == "fence", f"{first}, {ahead}")
    page.keys("m", "0")
    there = page.text('[data-key="a0"] .does')
    count.told("and by a key", page.run("document.getElementById('onward').checked") and there != ahead, there)
    page.keys("m")
    count.told("or not", not page.run("document.getElementById('onward').checked"))


def drawn(count, page):
    page.choose("sb")
    page.draw()
    rows = page.run("""[...document.querySelectorAll('#drawn tbody tr')].map(one => `${one.className} ${
        one.querySelector('.values').innerText.trim()} ${one.querySelector('.count').textContent}`)""")
    good = len(rows) == 4 and re.fullmatch("wanted .*0:x7=0 1:x7=0 188", " ".join(rows[0].split()))
    count.told("drawn runs in parts", good, rows)
    page.click('#drawn tbody tr:nth-child(2) button')
    count.told("a row's schedule, shrunk", "of the drawn run's" in page.note() and page.word() == "Fails", page.note())
    in_bursts(count, page)
    page.over("runs", "100000")
    page.over("length", "2000")
    page.browser.click("#go")
    page.browser.until("document.querySelectorAll('#drawn tbody tr').length > 1")
    page.browser.click("#go")
    page.browser.until("document.getElementById('go').textContent === 'Draw'")
    page.idle()
    said = page.text("#drawn p")
    count.told("a stop keeps what was drawn", "of 100000 runs, then stopped" in said and page.texts("#drawn td.count"), said)
    page.over("runs", "100001")
    page.draw()
    count.told("too many runs", page.text("#drawn") == "runs: a number from 1 to 100000", page.text("#drawn"))
    page.over("runs", "1000")
    page.over("seed", "--skip")
    page.draw()
    count.told("a seed that is none", "A seed is a number" in page.text("#drawn"), page.text("#drawn"))
    page.open()


def in_bursts(count, page):
    """Another draw has other counts, and its first unfinished run can be stepped through."""
    uniform = page.texts("#drawn td.count")
    page.run("""document.getElementById("how").value = "bursts";
        document.getElementById("how").dispatchEvent(new Event("change"))""")
    page.over("length", "30")
    page.draw()
    bursts = page.texts("#drawn td.count")
    count.told("runs in bursts", len(bursts) == 4 and bursts != uniform[:3] + bursts[3:], bursts)
    page.click("#drawn tr:last-child button")
    count.told("the first run that didn't finish", page.word() == "Unfinished" and page.place() == "30 of 30 events"
               and f"The first of {bursts[-1]} runs" in page.note(), [page.place(), page.note()])
    page.run("""document.getElementById("how").value = "uniform";
        document.getElementById("how").dispatchEvent(new Event("change"))""")


def long_runs(count, page):
    page.choose("spinlock")
    page.paste("a0 a1*1998")
    count.told("equal events are one", page.strip() == "a0 a1*1998", page.strip())
    page.run("document.activeElement.blur()")
    page.keys("0")
    count.told("one event after 1,999", page.place() == "2000 of 2000 events", page.place())
    page.keys("0")
    count.told("and no further one", "at most 2000" in page.note(), page.note())
