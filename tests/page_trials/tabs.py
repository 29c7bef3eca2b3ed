"""Tabs of one browser, another site, and what the page asks of other machines."""

import time

from page_trials.limits import gone, started

SITE = "data:text/html,<title>another site</title>"


def part(count, page):
    browser = page.browser
    page.open()
    page.choose("sb")
    page.paste("a0 a1 l0")
    first = browser.session, browser.target
    second = browser.open()
    page.open()
    page.event("a1")
    count.told("a second tab begins anew", page.strip() == "a1", page.strip())
    page.over("runs", "100000")
    page.over("length", "2000")
    browser.click("#go")
    running = started(page.served)
    browser.session, browser.target = first
    browser.send("Target.closeTarget", targetId=second[1], session=None)
    begun = time.monotonic()
    count.told("a closed tab ends its child", running and gone(page.served), f"{time.monotonic() - begun:.1f} s")
    count.told("the first tab has its own run", page.strip() == "a0 a1 l0", page.strip())
    elsewhere(count, page)
    said = [one for one in browser.complaints() if "status of" not in one]
    count.told("nothing on the console", not said, said)


def elsewhere(count, page):
    """Another site, which knows the address."""
    own = page.served.address
    foreign = [one for one in page.browser.requests() if not one.startswith((own, "about:", "blob:", "data:"))]
    count.told("no request to anywhere else", not foreign, foreign)
    page.browser.send("Page.navigate", url=SITE)
    page.browser.until("document.title === 'another site'")
    said = page.run(f"""fetch("{own}test", {{method: "POST", headers: {{"Content-Type": "application/json"}},
        body: '{{"text":""}}'}}).then(reply => reply.text(), error => error.name)""")
    count.told("another site can't ask", said == "TypeError", said)
    framed = page.run(f"""new Promise(done => {{ const frame = document.createElement("iframe"); frame.src = "{own}";
        frame.onload = () => {{ try {{ done(String(frame.contentDocument?.title)); }} catch (error) {{ done(error.name); }} }};
        document.body.append(frame); setTimeout(() => done("none"), 3000); }})""")
    count.told("nor frame the page", framed in ("SecurityError", "undefined", "none"), framed)
    # what the browser says of the other site's tries
    page.browser.events.clear()
    page.open()
    count.told("back at the page, the tab's run is there", page.strip() == "a0 a1 l0", page.strip())
