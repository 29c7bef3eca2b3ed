"""The picture's rows, and schedules that the program finds."""

from page_trials import texts
from page_trials.limits import gone, started

# two harts: each computes before it stores, and the first one goes round a loop
COMPUTES = """RISCV computes
{ 0:x5=2; 0:x6=x; 1:x5=1; 1:x6=y; }
 P0             | P1          ;
 again:         | nop         ;
 addi x5,x5,-1  | nop         ;
 bne x5,x0,again | sw x5,0(x6) ;
 sw x5,0(x6)    | lw x7,0(x6) ;
exists (1:x7=1)
"""
# cells with the lines of a source, as from-c --lines has them, and a comment of somebody's own
SOURCES = """RISCV sources
{ 0:x6=x; 1:x6=x; }
 P0 | P1 ;
 addi x5,x0,1 # 4: x = a ¦ b | addi x5,x0,2 # mine ;
 sw x5,0(x6) # 4 | sw x5,0(x6) ;
 addi x5,x0,3 # at.h:7: y = f(x⁏) | ;
 sw x5,0(x6) # 4 | ;
exists (0:x5=3)
"""
TOPS = "parseFloat(getComputedStyle(document.querySelector('.rows')).top)"
PLACES = """(() => { const box = document.querySelector('.rows').getBoundingClientRect();
    return [box.x + 60, box.y, box.height]; })()"""


def part(count, page):
    page.open()
    # without the schedule that the tab had
    page.choose("sb")
    page.over("text", COMPUTES)
    page.run("document.activeElement.blur()")
    code(count, page)
    page.paste("a0*5 a1*4 l1 l0")
    leads(count, page, list(range(1, 12)), "each row leads to its event")
    if page.run("!document.getElementById('picturing').hidden"):
        page.click("#memory-rows")
        leads(count, page, [5, 8, 9, 10, 11], "rows that touch no memory are left out")
        page.keys("Home", *["ArrowRight"] * 6)
        under = page.run(f"parseFloat(document.querySelector('.veil').style.top) - {TOPS}")
        count.told("the veil begins at the next row", 0 < under < 30, under)
        page.run("location.reload()")
        page.browser.until("document.readyState === 'complete'")
        page.idle()
        count.told("the switch stays", page.run("document.getElementById('memory-rows').checked"))
        page.click("#memory-rows")
    sources(count, page)
    if page.run("!document.getElementById('find').hidden"):
        finds(count, page)


def code(count, page):
    """What the cards say of the code, and where the harts are in the text."""
    labels, jumps = page.texts(".code .label"), page.texts(".code li > span:last-child i")
    count.told("labels, and where a jump leads", (labels, jumps) == (["again:"], ["→ again"]), [labels, jumps])
    lines = page.texts("#numbers .here")
    page.event("a1", "a1")
    both = lines, page.texts("#numbers .here")
    count.told("the lines where the harts are", both == (["4", "5"], ["5", "6"]), both)


def sources(count, page):
    """The comments of cells stand above their instructions, the line of a source once for all of one row, with its text from where it stands."""
    page.over("text", SOURCES)
    page.run("document.activeElement.blur()")
    page.idle()
    found = page.texts(".code .note")
    count.told("the source's lines above the code", found == ["4: x = a | b", "at.h:7: y = f(x;)", "4: x = a | b", "mine"], found)


def leads(count, page, places, name):
    """A click on each row of the picture goes to the place after its event."""
    x, y, height = page.run(PLACES)
    found = []
    for row in range(len(places)):
        page.run("document.querySelector('#chart').scrollTo(0, 0), document.querySelector('.rows').scrollIntoView()")
        x, y, height = page.run(PLACES)
        page.browser.click_at(x, y + (row + 0.5) * height / len(places))
        page.idle()
        found.append(int(page.place().split()[0]))
    count.told(name, found == places, found)


def finds(count, page):
    page.choose("sb")
    page.press("f")
    page.idle()
    count.told("the shortest is found", (page.strip(), page.word()) == ("a0*2 a1*2 l0 l1", "Holds"), page.note())
    page.choose("mp")
    page.event("a0")
    page.click("#find")
    count.told("or it isn't, and the run stays", "Not found in" in page.note() and page.strip() == "a0", page.note())
    count.told("which leads to what a source excludes", page.texts("#note .source") == ["What a source excludes"], page.note())
    page.over("text", texts.MANY)
    before = page.note()
    page.browser.click("#find")
    running = started(page.served)
    page.browser.until("document.getElementById('find').textContent.startsWith('Stop')")
    page.browser.click("#find")
    count.told("a search that is stopped ends its child", running and gone(page.served))
    page.idle()
    said = page.text("#find"), page.note(), page.text("#trouble")
    count.told("and says nothing", said == ("Find the shortest", before, ""), said)
    page.choose("sb")
