"""A browser that a trial drives: Chromium without a window, over its debugging pipe, with Python's library alone."""

import base64
import json
import os
import subprocess
import tempfile
import time

WORDS = ("--headless", "--no-sandbox", "--disable-gpu", "--no-first-run", "--disable-dev-shm-usage",
         "--disable-background-networking", "--disable-component-update", "--disable-extensions",
         "--remote-debugging-pipe")
# the codes of keys that aren't letters
CODES = {"Enter": 13, "Tab": 9, "ArrowLeft": 37, "ArrowRight": 39, "Home": 36, "End": 35, "Escape": 27, " ": 32}
SHIFT = 8


class Unanswered(RuntimeError):
    """The browser answers a question with an error of its own."""


class Browser:
    def __init__(self, chromium="chromium"):
        self.folder = tempfile.TemporaryDirectory(prefix="browser-", ignore_cleanup_errors=True)
        self.number, self.rest, self.events = 0, b"", []
        # the workers that run, by their sessions, with their names
        self.workers = {}
        self.start(chromium)

    def start(self, chromium):
        ours_in, theirs_out = os.pipe()
        theirs_in, ours_out = os.pipe()

        def pipes():
            # the browser reads descriptor 3 and writes 4
            spare_in, spare_out = os.dup(theirs_in), os.dup(theirs_out)
            os.dup2(spare_in, 3)
            os.dup2(spare_out, 4)

        self.child = subprocess.Popen(
            ["nice", "-n", "10", chromium, *WORDS, f"--user-data-dir={self.folder.name}", "about:blank"],
            preexec_fn=pipes, close_fds=False, stdout=subprocess.DEVNULL, stderr=subprocess.DEVNULL,
            start_new_session=True)
        os.close(theirs_in)
        os.close(theirs_out)
        self.reader, self.writer = os.fdopen(ours_in, "rb", 0), os.fdopen(ours_out, "wb", 0)

    def open(self, width=1280, height=800, dark=False):
        """A further tab, which the calls below then drive."""
        self.target = self.send("Target.createTarget", url="about:blank", session=None)["targetId"]
        self.session = self.send("Target.attachToTarget", targetId=self.target, flatten=True, session=None)["sessionId"]
        for domain in ("Page", "Runtime", "Log", "Network", "DOM", "Accessibility"):
            self.send(f"{domain}.enable")
        self.send("Target.setAutoAttach", autoAttach=True, waitForDebuggerOnStart=False, flatten=True)
        self.size(width, height)
        self.send("Emulation.setScrollbarsHidden", hidden=True)
        self.dark(dark)
        return self.session, self.target

    def dark(self, dark):
        self.send("Emulation.setEmulatedMedia",
                  features=[{"name": "prefers-color-scheme", "value": "dark" if dark else "light"}])

    def size(self, width, height, scale=1):
        self.send("Emulation.setDeviceMetricsOverride", width=width, height=height, deviceScaleFactor=scale, mobile=False)

    def message(self):
        while b"\0" not in self.rest:
            piece = os.read(self.reader.fileno(), 1 << 16)
            if not piece:
                raise EOFError("the browser has gone")
            self.rest += piece
        one, _, self.rest = self.rest.partition(b"\0")
        got = json.loads(one)
        if got.get("method") == "Target.attachedToTarget":
            self.workers[got["params"]["sessionId"]] = got["params"]["targetInfo"]["title"]
        elif got.get("method") == "Target.detachedFromTarget":
            self.workers.pop(got["params"]["sessionId"], None)
        return got

    def send(self, method, session=..., **words):
        self.number += 1
        asked = {"id": self.number, "method": method, "params": words}
        session = self.session if session is ... else session
        if session:
            asked["sessionId"] = session
        self.writer.write(json.dumps(asked).encode() + b"\0")
        while True:
            got = self.message()
            if got.get("id") == self.number:
                if "error" in got:
                    raise Unanswered(f"{method}: {got['error']}")
                return got["result"]
            self.events.append(got)

    def run(self, script):
        got = self.send("Runtime.evaluate", expression=script, awaitPromise=True, returnByValue=True, userGesture=True)
        if "exceptionDetails" in got:
            raise RuntimeError(got["exceptionDetails"].get("exception", {}).get("description", got))
        return got["result"].get("value")

    def holds(self, script):
        """Whether the page says so now; one that is about to go elsewhere doesn't."""
        try:
            return self.run(script)
        except Unanswered:
            return False

    def until(self, script, seconds=60):
        end = time.monotonic() + seconds
        while not self.holds(script):
            if time.monotonic() > end:
                raise TimeoutError(script)
            time.sleep(0.02)

    def go(self, url):
        # another fragment alone would keep the page
        self.send("Page.navigate", url="about:blank")
        self.send("Page.navigate", url=url)
        self.until("document.readyState === 'complete'")

    def click(self, selector, shift=False):
        """A click of the mouse in the middle of what the selector names."""
        where = self.run(f"""(() => {{ const found = document.querySelector({json.dumps(selector)});
            if (!found) return null; found.scrollIntoView({{block: "nearest"}});
            const box = found.getBoundingClientRect(); return [box.x + box.width / 2, box.y + box.height / 2]; }})()""")
        if where is None:
            raise LookupError(selector)
        self.click_at(*where, shift=shift)

    def click_at(self, x, y, shift=False):
        for kind in ("mousePressed", "mouseReleased"):
            self.send("Input.dispatchMouseEvent", type=kind, x=x, y=y, button="left", clickCount=1,
                      modifiers=SHIFT if shift else 0)

    def press(self, key, shift=False):
        """A key of the keyboard; a digit is the same key with and without Shift."""
        code = f"Digit{key}" if key.isdigit() else key
        for kind in ("keyDown", "keyUp"):
            words = {"type": kind, "key": key, "code": code, "modifiers": SHIFT if shift else 0}
            if kind == "keyDown" and (len(key) == 1 or key == "Enter"):
                words["text"] = "\r" if key == "Enter" else key
            number = CODES.get(key, ord(key.upper()) if len(key) == 1 and key.isalnum() else None)
            if number:
                words["windowsVirtualKeyCode"] = number
            self.send("Input.dispatchKeyEvent", **words)

    def type(self, text):
        self.send("Input.insertText", text=text)

    def drop(self, *paths):
        """Files that are dragged onto the page."""
        data = {"items": [], "files": [str(path) for path in paths], "dragOperationsMask": 1}
        for kind in ("dragEnter", "dragOver", "drop"):
            self.send("Input.dispatchDragEvent", type=kind, x=200, y=200, data=data)

    def picture(self, whole=False):
        got = self.send("Page.captureScreenshot", format="png", captureBeyondViewport=whole)
        return base64.b64decode(got["data"])

    def nodes(self):
        """What a screen reader is given: role, name and whether it is ignored."""
        return [(node.get("role", {}).get("value"), node.get("name", {}).get("value"))
                for node in self.send("Accessibility.getFullAXTree")["nodes"] if not node.get("ignored")]

    def complaints(self):
        """What the page said on its console, and what failed to load."""
        self.run("1")
        found = []
        for one in self.events:
            if one["method"] == "Runtime.exceptionThrown":
                found.append(one["params"]["exceptionDetails"].get("exception", {}).get("description"))
            elif one["method"] == "Log.entryAdded":
                found.append(one["params"]["entry"]["text"])
            elif one["method"] == "Runtime.consoleAPICalled":
                found.append(str(one["params"]["args"]))
        return found

    def requests(self):
        return [one["params"]["request"]["url"] for one in self.events if one["method"] == "Network.requestWillBeSent"]

    def close(self):
        self.child.terminate()
        try:
            self.child.wait(10)
        except subprocess.TimeoutExpired:
            self.child.kill()
            self.child.wait()
        self.folder.cleanup()
