"""Pictures of the page: those of docs/page.md, and those that whoever changes the page should look at."""

from page_parts import ROOT
from page_trials import pngs, texts

SB = "a0", "a0", "a1", "a1", "l0", "l1"
WIDTHS = 390, 1024, 1280, 1920


def of_guide(page, folder):
    """The pictures of docs/page.md, small enough for the repository."""
    for name, shows in (("page.png", drawn), ("page-dark.png", veiled)):
        shows(page)
        page.run("document.activeElement.blur(), scrollTo(0, 0)")
        (folder / name).write_bytes(pngs.smaller(page.browser.picture()))
    page.browser.dark(False)


def drawn(page):
    page.open()
    page.choose("sb")
    page.event(*SB)
    page.draw()


def veiled(page):
    page.choose("sb+rfi-pos")
    page.click("#witnesses button")
    page.keys("ArrowLeft", "ArrowLeft")
    page.browser.dark(True)


def to_look_at(page, folder):
    """What is easily broken: small windows, large type, much of something, faults, what opens over the page."""
    folder.mkdir(parents=True, exist_ok=True)
    for name, shows in LOOKS.items():
        # a tab of its own, since a tab keeps what was done in it
        page.browser.open()
        page.open()
        shows(page)
        (folder / f"{name}.png").write_bytes(page.browser.picture(whole=name in WHOLE))


def many_harts(page):
    page.over("text", texts.MANY)
    page.event("a63")


def long_names(page):
    page.over("text", texts.LONG)
    page.event("a0")


def compiled(page):
    page.over("text", (ROOT / "examples/c/dekker.gcc.litmus").read_text())
    page.run("document.activeElement.blur()")
    page.keys("m", "0", "0", "1", "1", "0", "1")


def with_sources(page):
    page.over("text", (ROOT / "examples/queues/wrong/no_look.litmus").read_text())
    page.run("document.activeElement.blur()")
    page.paste("a0*11 l0 a0*9 a1*4")


def menu(page):
    page.event(*SB[:4])
    page.click("#saving summary")


def not_shown(page):
    page.choose("mp")
    page.draw()
    page.click("#drawn .source")


def four_harts(width):
    """A picture of four harts in a window of this width."""
    def shows(page):
        page.browser.size(width, 900)
        page.choose("iriw")
        page.paste("a0 a1*2 a2 a3*2 l0 l2")
    return shows


def unfinished(page):
    """Runs in bursts, and the first that didn't finish."""
    page.choose("spinlock")
    page.run("""document.getElementById("how").value = "bursts";
        document.getElementById("how").dispatchEvent(new Event("change"))""")
    page.draw()
    page.click("#drawn tr:last-child button")


def sized(width, height, scale=1):
    def shows(page):
        page.browser.size(width, height, scale)
        drawn(page)
    return shows


LOOKS = {"begin": lambda page: page.choose("sb"), "drawn": drawn, "narrow": sized(400, 800), "zoom": sized(640, 400, 2),
         "dark": lambda page: (drawn(page), page.browser.dark(True)), "veiled": veiled, "harts": many_harts,
         "long-names": long_names, "not-shown": not_shown, "fault": lambda page: page.over("text", texts.FAULTY), "compiled": compiled,
         "with-sources": with_sources,
         "keys": lambda page: page.press("?"), "menu": menu,
         "many-outcomes": lambda page: (page.choose("iriw"), page.draw()),
         "unfinished": unfinished, **{f"four-harts-{width}": four_harts(width) for width in WIDTHS},
         "dropping": lambda page: page.run("document.body.classList.add('dropping')")}
WHOLE = ("narrow", "zoom", "many-outcomes", "not-shown", "unfinished", *(f"four-harts-{width}" for width in WIDTHS))
