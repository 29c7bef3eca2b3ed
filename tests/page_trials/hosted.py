"""The page without a server: the folder that scripts/static-page made, below a path of a static host. It is asked and
driven as the served page is."""

import json
import socket
import subprocess
import sys
import tempfile
import threading
import time
from pathlib import Path

from page_trials import same
from page_trials.limits import gone, started

# any path serves; this one has what a path may have
BELOW = "a path/ztso+1"


def free_port():
    with socket.socket() as one:
        one.bind(("127.0.0.1", 0))
        return one.getsockname()[1]


class Hosted:
    """A folder that a static host serves, as page_trials.served.Served is."""

    secret = "a static page has no secret"
    own = "/"

    def __init__(self, folder, browser):
        self.made, self.browser, self.lock = folder.resolve(), browser, threading.Lock()
        self.top = tempfile.TemporaryDirectory(prefix="ztso-page-")
        below = Path(self.top.name, BELOW)
        below.parent.mkdir(parents=True)
        below.symlink_to(self.made)
        self.port = free_port()
        self.host = f"127.0.0.1:{self.port}"
        self.address = f"http://{self.host}/{BELOW.replace(' ', '%20')}/"
        self.link = f"{self.address}#run="
        self.begin()

    def begin(self):
        words = [sys.executable, "-m", "http.server", "--bind", "127.0.0.1", "--directory", self.top.name, str(self.port)]
        self.process = subprocess.Popen(words, stdout=subprocess.DEVNULL, stderr=subprocess.DEVNULL)
        for _ in range(200):
            with socket.socket() as one:
                if not one.connect_ex(("127.0.0.1", self.port)):
                    return
            time.sleep(0.05)

    def stop(self):
        self.process.terminate()
        return self.process.wait()

    def shelf(self):
        return json.loads((self.made / "known.json").read_text())

    def ask(self, route, **members):
        """The status and the answer of a question, which the page's own module is asked."""
        with self.lock:
            answer = self.browser.run(f"""import(new URL("source.js", document.baseURI)).then(source =>
                source.answered({json.dumps(route)}, {json.dumps(members)}))""")
        return 503 if "error" in answer else 200, answer

    def request(self, _method, path, body):
        status, answer = self.ask(path.removeprefix(self.own), **body)
        return status, json.dumps(answer).encode(), None

    def children(self):
        """The workers that answer what may take long. There is none before one is asked, or after one is stopped."""
        # what began or ended before this is known by its answer
        self.browser.send("Target.getTargets", session=None)
        return [worker for worker, name in self.browser.workers.items() if name == "long"]

    def end(self, *_):
        status = self.stop()
        self.top.cleanup()
        return status


def part(count, page, program):
    """What the static page alone has: its words, answers as the server's, a worker that is ended, no network."""
    page.open()
    said = page.text("#unproved")
    count.told("it says first where it runs, and what is proved", said == "Runs in your browser. The proofs are of the sources: what is this?" and page.run(
        "document.getElementById('unproved').getBoundingClientRect().bottom < innerHeight"), said)
    count.told("and nothing of a page that doesn't begin", not page.text("#slow"))
    same.compare(count, "the browser's workers", same.served_answers(program, same.PART), page.served.ask)
    offline(count, page)


def offline(count, page):
    """Once the page is loaded it needs no network: for no step, and for no search after one that was stopped."""
    # with no worker yet for what takes long
    page.open()
    page.served.stop()
    try:
        page.choose("sb")
        page.event("a0", "a0", "a1", "a1", "l0", "l1")
        count.told("offline: steps", page.word() == "Holds", page.word())
        page.over("runs", "100000")
        page.over("length", "2000")
        for _ in range(2):
            page.browser.click("#go")
            running = started(page.served)
            page.browser.click("#go")
            page.browser.until("document.getElementById('go').textContent === 'Draw'")
            count.told("offline: a draw that is stopped ends its worker, and another one begins",
                       running and gone(page.served), f"{running}, {page.text('#drawn')}{page.text('#trouble')}")
        page.click("#find")
        said = page.strip(), page.text("#trouble")
        count.told("offline: a search", said == ("a0*2 a1*2 l0 l1", ""), said)
    finally:
        page.served.begin()
