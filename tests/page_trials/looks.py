"""What is seen: contrast, names of controls, narrow windows and large type."""

from page_trials.texts import link_of

# the texts whose contrast with what is under them is below 4.5
PALE = """(() => {
    const numbers = text => { const found = /color\\(srgb ([^)]+)\\)/.exec(text);
        return found ? found[1].split(/[\\s/]+/).map((one, at) => at < 3 ? 255 * one : Number(one))
            : /rgba?\\(([^)]+)\\)/.exec(text)[1].split(/[\\s,/]+/).map(Number); };
    const under = element => { for (let at = element; at; at = at.parentElement) {
        const found = numbers(getComputedStyle(at).backgroundColor);
        if ((found[3] ?? 1) === 1) return found; } return [255, 255, 255]; };
    const light = colour => { const [red, green, blue] = colour.slice(0, 3).map(one => one / 255)
        .map(one => one <= 0.04045 ? one / 12.92 : ((one + 0.055) / 1.055) ** 2.4);
        return 0.2126 * red + 0.7152 * green + 0.0722 * blue; };
    const found = [], texts = document.createTreeWalker(document.body, NodeFilter.SHOW_TEXT);
    while (texts.nextNode()) {
        const element = texts.currentNode.parentElement, style = getComputedStyle(element);
        if (!texts.currentNode.textContent.trim() || !element.checkVisibility() || element.closest(".unseen, option")) continue;
        const both = [light(numbers(style.color)), light(under(element))].sort((one, other) => other - one);
        const ratio = (both[0] + 0.05) / (both[1] + 0.05);
        if (ratio < 4.5) found.push(`${element.tagName}.${element.className} ${ratio.toFixed(1)} ${texts.currentNode.textContent.trim().slice(0, 20)}`);
    }
    return [...new Set(found)]; })()"""
# short words of tables and buttons that stand in more than one line
BROKEN = """[...document.querySelectorAll("th, button:not(.event)")].filter(one => {
    const range = document.createRange(); range.selectNodeContents(one);
    return one.checkVisibility() && !/\\s/.test(one.textContent)
        && new Set([...range.getClientRects()].map(box => Math.round(box.top / 8))).size > 1; }).map(one => one.textContent)"""
# controls that are seen and that a finger would miss
SMALL = """[...document.querySelectorAll("button, select, input, summary, textarea")].filter(one => one.checkVisibility()
    && !one.closest(".unseen") && one.getBoundingClientRect().width).map(one => [one, (one.type === "checkbox" ? one.parentElement
    : one).getBoundingClientRect()]).filter(([, { width, height }]) => width < 24 || height < 40)
    .map(([one, { width, height }]) => `${one.id || one.textContent} ${width} x ${height}`)"""
GOES_ON = """(() => { const box = document.getElementById("chart");
    return [box.scrollWidth > box.clientWidth, !document.getElementById("goes-on").hidden]; })()"""
# whether the buttons that lead through a run, and its picture, are whole in the window
SEEN = """["back", "chart"].map(id => document.getElementById(id).getBoundingClientRect()).map(
    ({ top, bottom }) => top >= 0 && bottom <= innerHeight)"""
# the pixels of a picture's letters, which the program writes with 13; and the harts' names that are seen over its columns
LETTERS = "(() => { const one = document.querySelector('#chart img'); return 13 * one.width / one.naturalWidth; })()"
NAMES = """(() => { const box = document.getElementById("chart").getBoundingClientRect();
    return [...document.querySelectorAll(".heads b")].filter(one => { const { left, right, top } = one.getBoundingClientRect();
        return left >= box.left - 1 && right <= box.right && top >= box.top; }).map(one => one.textContent); })()"""
PRESSED = "document.getElementById('fit').getAttribute('aria-pressed')"
CONTROLS = ("button", "combobox", "textbox", "checkbox", "region", "dialog", "image", "img")


def part(count, page):
    page.open()
    for dark in (False, True):
        page.browser.dark(dark)
        shown(page)
        pale = page.run(PALE)
        count.told(f"contrast, {'dark' if dark else 'light'}", not pale, pale)
    page.browser.dark(False)
    page.choose("iriw")
    page.draw()
    broken = page.run(BROKEN)
    count.told("no button or heading is broken into lines", not broken, broken)
    nameless = [role for role, name in page.browser.nodes() if role in CONTROLS and not name]
    count.told("each control has a name", not nameless, nameless)
    tabbed(count, page)
    page.over("text", page.run("document.getElementById('text').value").replace("RISCV SB", "RISC SB"))
    for width, height, scale in ((400, 800, 1), (640, 400, 2), (320, 640, 1)):
        page.browser.size(width, height, scale)
        count.told(f"nothing is wider than {width} pixels", not page.wide())
    page.choose("iriw")
    page.draw()
    broken = page.run(BROKEN)
    count.told("nor is a short word broken there", not broken and not page.wide(), broken)
    phone(count, page)
    sent(count, page)
    page.browser.size(1280, 800)
    numbered(count, page)
    pictures(count, page)
    about(count, page)
    page.choose("sb")


def phone(count, page):
    """A phone's window: targets for fingers, and a picture that is whole, or scrolled in its own box."""
    page.browser.size(390, 844)
    page.event("a0", "a1")
    page.click('[data-key="break 1 4"]')
    small = page.run(SMALL)
    count.told("no target is below 40 pixels on a phone", not small, small)
    small = page.run(LETTERS), page.run(GOES_ON), page.run(PRESSED)
    count.told("a picture's letters have 9 pixels, and it is scrolled in its own box", small[0] >= 9 and small[1:] == ([True, True], "true"), small)
    kept_in_reach(count, page)
    page.click("#fit")
    found = page.run("""(() => { const box = document.getElementById("chart"), rows = document.querySelector(".rows");
        return [box.scrollWidth > box.clientWidth, rows.clientHeight / 2 >= 24]; })()""")
    count.told("as large as it is read, its rows are no smaller, and it is scrolled", found == [True, True] and not page.wide(), found)
    seen = page.run(GOES_ON)
    page.run("document.getElementById('chart').scrollLeft = 9999")
    page.browser.until("document.getElementById('goes-on').hidden", 5)
    count.told("a picture that goes on says so, until it is scrolled to its end", seen == [True, True], seen)


def kept_in_reach(count, page):
    """On a phone: the names over a scrolled picture, Back and memory wherever the page is, and what a press changed."""
    before = page.run(NAMES)
    page.run("document.getElementById('chart').scrollLeft = 260")
    names = before, page.run(NAMES)
    count.told("the harts' names stay over a scrolled picture", "P0" in names[0] and names[1] and names[1][0] in ("P0", "P1", "P2"), names)
    page.choose("iriw")
    page.run("scrollTo(0, 0)")
    clipped = page.run("(() => { const { scrollHeight, clientHeight } = document.getElementById('witnesses'); return scrollHeight - clientHeight; })()")
    count.told("the list of witnesses isn't clipped", clipped == 0, clipped)
    back = page.run("document.getElementById('back').getBoundingClientRect().bottom")
    count.told("Back is in reach where the run isn't seen", 700 < back <= 844, back)
    page.click("#witnesses button")
    top = page.run("document.getElementById('run').getBoundingClientRect().top")
    count.told("a witness brings its run into sight", top < 120, top)
    page.choose("iriw")
    page.run("scrollTo(0, 0)")
    page.event("a0")
    box = page.run("(() => { const { top, bottom } = document.querySelector('.hart').getBoundingClientRect(); return [top, bottom]; })()")
    count.told("and a tap its hart's card", box[0] >= 0 and box[1] <= 844 - 54, box)
    memory = page.run("(() => { const { top, bottom } = document.getElementById('memory').getBoundingClientRect(); return [top, bottom]; })()")
    count.told("beside which memory is seen", memory[0] >= 0 and memory[1] <= 844, memory)
    page.event("a1")


def sent(count, page):
    """A run that somebody was sent begins at its picture, with the buttons that lead through it in reach, however far it is scrolled."""
    for width, name, run in ((390, "sb", "a0 a1 a0 a1 l0 l1"), (360, "wrc", "a0 l0 a1 a1 l1 a2 a2"), (360, "iriw", "a0 a1*2 a2 a3*2 l0 l2")):
        page.browser.size(width, 780)
        page.choose(name)
        text = page.run("document.getElementById('text').value")
        page.open(link_of({"text": text, "buffer": 4, "tokens": run}))
        seen = page.run(SEEN)
        count.told(f"{name}'s run begins at its picture on {width} pixels", seen == [True, True], seen)
        count.told(f"whose letters are read, {name}", page.run(LETTERS) >= 9, page.run(LETTERS))
        page.run("window.scrollBy(0, 160)")
        page.click("#back")
        count.told(f"Back is in reach, {name}", page.run("document.getElementById('back').getBoundingClientRect().top") >= 0)


def numbered(count, page):
    """The numbers of the lines stand beside these at the text's end too, where a scrollbar lies below the text."""
    page.browser.send("Emulation.setScrollbarsHidden", hidden=False)
    right = page.run("document.getElementById('text').value")
    page.over("text", f"{right}(* {'long ' * 60}*)\n" + "(* more *)\n" * 60)
    page.run("document.getElementById('text').scrollTop = 1e6")
    found = page.run("""(() => { const text = document.getElementById("text"), numbers = document.getElementById("numbers");
        return [text.offsetHeight > text.clientHeight, text.scrollTop, numbers.scrollTop]; })()""")
    count.told("the numbers of the lines are scrolled as the text is", found[0] and found[1] == found[2] > 0, found)
    page.browser.send("Emulation.setScrollbarsHidden", hidden=True)
    page.over("text", right)


def pictures(count, page):
    """The picture fits its box where it is a little too wide, in any window, and rows lead where they did."""
    page.choose("iriw")
    page.paste("a0 a1*2 a2 a3*2 l0 l2")
    for width, fits in ((1280, True), (1024, False), (1920, True), (1280, True)):
        page.browser.size(width, 900)
        page.browser.until(f"{GOES_ON}[0] === {str(not fits).lower()} && {GOES_ON}[1] === {str(not fits).lower()}", 5)
    size = page.run("[document.querySelector('#chart img').getBoundingClientRect().width, document.querySelector('.rows').clientHeight]")
    count.told("a picture of four harts fits 1,280 pixels", size[0] < 900 and 8 * 12 < size[1] < 8 * 20, size)
    count.told("and what is veiled keeps its colours", "grayscale" not in page.run(
        "getComputedStyle(document.querySelector('.veil')).backdropFilter"))


def about(count, page):
    """The legend, and the links to the project and to the help."""
    page.click("#signs")
    words = page.text("#legend")
    count.told("a legend", page.run("document.getElementById('legend').open") and all(
        one in words for one in ("act", "land", "pending", "[3]", "[own 1]", "Holds", "witness")), words)
    page.press("0")
    page.press("Escape")
    count.told("under which no key acts", page.run("!document.querySelector('dialog[open]')") and page.place() == "8 of 8 events", page.place())
    links = page.run("[...document.querySelectorAll('header a')].map(one => [one.textContent, one.getAttribute('href')])")
    count.told("links to the help and the project", links == [["Help", "guide.html"], ["Project", "project.html"]], links)
    heads = page.run("Promise.all(['guide.html', 'project.html'].map(one => fetch(one).then(got => got.text())))")
    count.told("which are there", "<h1 id=\"the-page" in heads[0] and "<h1 id=\"ztso\"" in heads[1], [head[:300] for head in heads])


def shown(page):
    """A test with something of everything: a schedule that goes on, drawn runs, a break, a waiting hart."""
    page.choose("sb+fence.rw.rws")
    page.paste("a0 a1 a0 l0 a0 l1")
    page.keys("Home", "ArrowRight")
    page.click('[data-key="break 1 4"]')
    page.draw()


def tabbed(count, page):
    """Every control is reached by Tab, in the page's order."""
    page.choose("sb")
    page.run("document.querySelector('.skip').focus()")
    reached = []
    for _ in range(60):
        page.press("Tab")
        reached.append(page.run("document.activeElement.id || document.activeElement.dataset.key || document.activeElement.tagName"))
        if reached[-1] == "chart":
            break
    wanted = ["keys", "shelf", "open", "buffer", "text", "runs", "go", "break 0 0", "a0", "a1", "onward", "paste", "chart"]
    places = [reached.index(one) if one in reached else -1 for one in wanted]
    count.told("Tab goes through the page in order", places == sorted(places) and -1 not in places, reached)
