"""The page in a browser, as a user has it: by clicks and keys, and by what is seen of it."""

import json

READY = """document.querySelector("main")?.getAttribute("aria-busy") === "false" &&
    document.querySelectorAll(".hart").length > 0"""


class Page:
    def __init__(self, browser, served):
        self.browser, self.served = browser, served
        self.run, self.press = browser.run, browser.press

    def idle(self):
        self.browser.until(READY)

    def open(self, more=""):
        self.browser.go(self.served.address + more)
        self.idle()

    def event(self, *keys):
        """Clicks of these events' buttons, one after the other."""
        for key in keys:
            self.click(f'[data-key="{key}"]')

    def click(self, selector, shift=False):
        self.browser.click(selector, shift)
        self.idle()

    def keys(self, *keys, shift=False):
        for key in keys:
            self.press(key, shift=shift)
            self.idle()

    def choose(self, name):
        """The list opens outside of the page, so its value is set."""
        self.run(f"""document.getElementById("shelf").value = {json.dumps(name)};
            document.getElementById("shelf").dispatchEvent(new Event("change"))""")
        self.idle()

    def over(self, area, text):
        """Another text in an area, in place of all that was there."""
        self.run(f"document.getElementById('{area}').focus(), document.getElementById('{area}').select()")
        self.browser.type(text)
        if area == "text":
            self.browser.until("document.querySelector('main').getAttribute('aria-busy') === 'false'")

    def paste(self, text):
        """A schedule or a link by the button Paste."""
        if self.run("document.getElementById('pasting').hidden"):
            self.click("#paste")
        self.over("pasted", text)
        self.click("#load")

    def draw(self):
        """Draws runs, to their end."""
        self.browser.click("#go")
        self.browser.until("document.getElementById('go').textContent === 'Draw'")
        self.idle()

    def text(self, selector):
        return self.run(f"document.querySelector({json.dumps(selector)})?.textContent ?? ''")

    def texts(self, selector):
        return self.run(f"[...document.querySelectorAll({json.dumps(selector)})].map(one => one.textContent.trim())")

    def strip(self):
        return " ".join(self.texts("#strip li"))

    def word(self):
        return self.text("#verdict .word")

    def place(self):
        return self.text("#place")

    def note(self):
        return self.text("#note")

    def wide(self):
        """Whether the page is wider than its window."""
        return self.run("document.documentElement.scrollWidth > innerWidth")
